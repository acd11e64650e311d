//! Numbers of different kinds, each of its own type, and the rows of the table.

use core::fmt;

/// A name. Equal names have equal atoms; 0 to 4 are `require`, `module`, `exports`, `default` and
/// `mod`.
#[derive(Clone, Copy, Default, PartialEq, Eq, PartialOrd, Ord, Hash)]
#[repr(transparent)]
pub struct Atom([u8; 2]);

/// A file.
#[derive(Clone, Copy, Default, PartialEq, Eq, PartialOrd, Ord, Hash)]
#[repr(transparent)]
pub struct FileName([u8; 2]);

/// What [`Atom`] and [`FileName`] share: two bytes, big-endian as the calls read them.
macro_rules! two_bytes {
    ($name:ident) => {
        impl $name {
            /// Made from its number.
            pub const fn new(number: u16) -> Self {
                Self(number.to_be_bytes())
            }

            /// Its number.
            pub const fn get(self) -> u16 {
                u16::from_be_bytes(self.0)
            }
        }

        impl fmt::Debug for $name {
            fn fmt(&self, f: &mut fmt::Formatter<'_>) -> fmt::Result {
                f.debug_tuple(stringify!($name)).field(&self.get()).finish()
            }
        }
    };
}

two_bytes!(Atom);
two_bytes!(FileName);

/// A row of the table: a source and the file to which it resolves.
#[derive(Clone, Copy, Debug, PartialEq, Eq, Hash)]
#[repr(C)]
pub struct Row {
    /// The source.
    pub source: Atom,
    /// The file to which it resolves.
    pub file: FileName,
}

/// The number of a module in its scope: 0 for the first file that is asked for, and so on.
#[derive(Clone, Copy, Debug, PartialEq, Eq, PartialOrd, Ord, Hash)]
pub struct ModuleId(u16);

impl ModuleId {
    /// Made from its number.
    pub const fn new(number: u16) -> Self {
        Self(number)
    }

    /// Its number.
    pub const fn get(self) -> u16 {
        self.0
    }

    /// The context of the names inside the module.
    pub const fn local_ctxt(self) -> SyntaxContext {
        SyntaxContext(2 + 2 * self.0 as u32)
    }

    /// The context of the names that the module exports.
    pub const fn export_ctxt(self) -> SyntaxContext {
        SyntaxContext(3 + 2 * self.0 as u32)
    }
}

/// The context of a name. The default is the empty one, 0.
#[derive(Clone, Copy, Debug, Default, PartialEq, Eq, PartialOrd, Ord, Hash)]
pub struct SyntaxContext(u32);

impl SyntaxContext {
    /// Made from its number.
    pub const fn new(number: u32) -> Self {
        Self(number)
    }

    /// Its number.
    pub const fn get(self) -> u32 {
        self.0
    }
}
