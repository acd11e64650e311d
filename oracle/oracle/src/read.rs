//! Document 01's bytes to swc's types. Bytes off the grammar give [Bad], without the document's order of refusals.

mod expression;
mod module;
mod records;
mod statement;

use std::ops::RangeInclusive;

use swc_atoms::Atom;
use swc_common::{BytePos, Span, SyntaxContext, DUMMY_SP};
use swc_ecma_ast::{Ident, IdentName, Str};

use crate::names::atom;

pub struct Bad(pub String);

pub type Res<T> = Result<T, Bad>;

fn bad<T>(text: impl Into<String>) -> Res<T> {
    Err(Bad(text.into()))
}

/// Also what keeps reading, which is recursive, inside the stack.
const DEEPEST: u8 = 64;

/// The bytes that are left of the input or of a field's content, and the depth of the fields in them.
pub struct Reader<'a> {
    bytes: &'a [u8],
    depth: u8,
}

impl<'a> Reader<'a> {
    pub fn new(bytes: &'a [u8]) -> Self {
        Reader { bytes, depth: 1 }
    }

    fn take(&mut self, n: usize) -> Res<&'a [u8]> {
        match self.bytes.split_at_checked(n) {
            Some((head, tail)) => {
                self.bytes = tail;
                Ok(head)
            }
            None => bad("cut off"),
        }
    }

    fn array<const N: usize>(&mut self) -> Res<[u8; N]> {
        match self.bytes.split_first_chunk() {
            Some((head, tail)) => {
                self.bytes = tail;
                Ok(*head)
            }
            None => bad("cut off"),
        }
    }

    fn byte(&mut self) -> Res<u8> {
        self.array().map(|[b]| b)
    }

    fn flag(&mut self) -> Res<bool> {
        match self.byte()? {
            0 => Ok(false),
            1 => Ok(true),
            b => bad(format!("kind byte {b}")),
        }
    }

    fn u16(&mut self) -> Res<u16> {
        self.array().map(u16::from_be_bytes)
    }

    fn u32(&mut self) -> Res<u32> {
        self.array().map(u32::from_be_bytes)
    }

    fn atom(&mut self) -> Res<Atom> {
        self.u16().map(atom)
    }

    fn name(&mut self) -> Res<IdentName> {
        Ok(IdentName::new(self.atom()?, DUMMY_SP))
    }

    fn ident(&mut self) -> Res<Ident> {
        let sym = self.atom()?;
        let ctxt = SyntaxContext::from_u32(self.u32()?);
        Ok(Ident::new(sym, DUMMY_SP, ctxt))
    }

    /// A stamp s stands as the span from s to s, without raw text.
    fn literal(&mut self) -> Res<Str> {
        let value = self.atom()?.into();
        let stamp = BytePos(self.u32()?);
        let span = Span {
            lo: stamp,
            hi: stamp,
        };
        Ok(Str {
            span,
            value,
            raw: None,
        })
    }

    fn next_tag(&self) -> Option<u8> {
        self.bytes.first().copied()
    }

    /// The next field; `read` must use up its content.
    fn field<T>(&mut self, read: impl FnOnce(u8, &mut Reader<'a>) -> Res<T>) -> Res<T> {
        let tag = self.byte()?;
        let length = self.u16()?;
        let bytes = self.take(length.into())?;
        if self.depth > DEEPEST {
            return bad(format!("deeper than {DEEPEST}"));
        }
        let depth = self.depth + 1;
        let mut content = Reader { bytes, depth };
        let value = read(tag, &mut content)?;
        content.end()?;
        Ok(value)
    }

    /// The next field, which has this tag.
    fn tagged<T>(&mut self, wanted: u8, read: impl FnOnce(&mut Reader<'a>) -> Res<T>) -> Res<T> {
        self.field(|tag, content| match tag == wanted {
            true => read(content),
            false => bad(format!("tag {tag:02x} for {wanted:02x}")),
        })
    }

    /// Fields as long as their tags are among these.
    fn many<T>(
        &mut self,
        tags: RangeInclusive<u8>,
        mut read: impl FnMut(&mut Reader<'a>) -> Res<T>,
    ) -> Res<Vec<T>> {
        let mut list = Vec::new();
        while self.next_tag().is_some_and(|tag| tags.contains(&tag)) {
            list.push(read(self)?);
        }
        Ok(list)
    }

    /// Fields to the end of the content.
    fn rest<T>(&mut self, read: impl FnMut(&mut Reader<'a>) -> Res<T>) -> Res<Vec<T>> {
        self.many(0..=255, read)
    }

    /// A field, if there is one before the end of the content.
    fn optional<T>(&mut self, read: impl FnOnce(&mut Reader<'a>) -> Res<T>) -> Res<Option<T>> {
        match self.next_tag() {
            Some(_) => read(self).map(Some),
            None => Ok(None),
        }
    }

    pub fn end(&self) -> Res<()> {
        match self.next_tag() {
            None => Ok(()),
            Some(tag) => bad(format!("{tag:02x} left over")),
        }
    }
}
