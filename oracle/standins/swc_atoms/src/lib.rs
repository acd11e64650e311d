//! Stand-in for `swc_atoms`. As in swc, text of up to 7 bytes stands in the atom itself. Longer text is shared, but not
//! interned.
//!
//! `Wtf8Atom` is the type of `Str::value`. Lone surrogates cannot occur here, so it holds plain text and all `lossy`
//! conversions are exact.

use std::{
    borrow::{Borrow, Cow},
    cmp::Ordering,
    fmt,
    hash::{Hash, Hasher},
    ops::Deref,
    rc::Rc,
};

#[derive(Clone, PartialEq, Eq)]
enum Text {
    /// The text's bytes, zeros, and the length in the last byte.
    Short([u8; 8]),
    Long(Rc<str>),
}

const LENGTH: usize = 7;

impl Text {
    fn new(text: &str) -> Self {
        if text.len() > LENGTH {
            return Text::Long(text.into());
        }
        let mut bytes = [0; 8];
        bytes[..text.len()].copy_from_slice(text.as_bytes());
        bytes[LENGTH] = text.len() as u8;
        Text::Short(bytes)
    }

    fn as_str(&self) -> &str {
        match self {
            Text::Short(bytes) => {
                let text = &bytes[..bytes[LENGTH].into()];
                std::str::from_utf8(text).expect("an atom is made of text")
            }
            Text::Long(text) => text,
        }
    }
}

impl Hash for Text {
    fn hash<H: Hasher>(&self, state: &mut H) {
        match self {
            Text::Short(bytes) => state.write_u64(u64::from_le_bytes(*bytes)),
            Text::Long(text) => text.hash(state),
        }
    }
}

impl PartialOrd for Text {
    fn partial_cmp(&self, other: &Self) -> Option<Ordering> {
        Some(self.cmp(other))
    }
}

impl Ord for Text {
    fn cmp(&self, other: &Self) -> Ordering {
        self.as_str().cmp(other.as_str())
    }
}

#[derive(Clone, PartialEq, Eq, PartialOrd, Ord, Hash)]
pub struct Wtf8Atom(Text);

#[derive(Clone, PartialEq, Eq, PartialOrd, Ord, Hash)]
pub struct Atom(Wtf8Atom);

#[macro_export]
macro_rules! atom {
    ($s:expr) => {
        $crate::Atom::from($s)
    };
}

impl Wtf8Atom {
    pub fn as_str(&self) -> Option<&str> {
        Some(self.0.as_str())
    }

    pub fn to_atom_lossy(&self) -> Cow<'_, Atom> {
        Cow::Owned(Atom(self.clone()))
    }

    pub fn to_string_lossy(&self) -> Cow<'_, str> {
        Cow::Borrowed(self.0.as_str())
    }
}

impl From<&str> for Wtf8Atom {
    fn from(s: &str) -> Self {
        Wtf8Atom(Text::new(s))
    }
}

impl From<Atom> for Wtf8Atom {
    fn from(a: Atom) -> Self {
        a.0
    }
}

impl PartialEq<str> for Wtf8Atom {
    fn eq(&self, other: &str) -> bool {
        self.0.as_str() == other
    }
}

impl fmt::Debug for Wtf8Atom {
    fn fmt(&self, f: &mut fmt::Formatter<'_>) -> fmt::Result {
        fmt::Debug::fmt(self.0.as_str(), f)
    }
}

impl Deref for Atom {
    type Target = str;

    fn deref(&self) -> &str {
        self.0 .0.as_str()
    }
}

impl Borrow<Wtf8Atom> for Atom {
    fn borrow(&self) -> &Wtf8Atom {
        &self.0
    }
}

impl From<&str> for Atom {
    fn from(s: &str) -> Self {
        Atom(s.into())
    }
}

impl PartialEq<str> for Atom {
    fn eq(&self, other: &str) -> bool {
        **self == *other
    }
}

impl PartialEq<&str> for Atom {
    fn eq(&self, other: &&str) -> bool {
        **self == **other
    }
}

impl fmt::Debug for Atom {
    fn fmt(&self, f: &mut fmt::Formatter<'_>) -> fmt::Result {
        fmt::Debug::fmt(&**self, f)
    }
}

impl fmt::Display for Atom {
    fn fmt(&self, f: &mut fmt::Formatter<'_>) -> fmt::Result {
        f.write_str(self)
    }
}
