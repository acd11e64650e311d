//! Reads bytes by the grammar: the fields in order, or the first fault with its place. It shares no code with the
//! library and none with the Rust's reader, and has the depth limit and the places, which the latter lacks.

use crate::grammar::{fixed_length, slots, Slot, Times};

/// Where a field of the read bytes stands.
#[derive(Clone, Copy)]
pub struct Span {
    pub tag: u8,
    /// Offset of the tag.
    pub start: usize,
}

impl Span {
    /// Offset of the content.
    pub fn content(self) -> usize {
        self.start + 3
    }

    /// The 2-byte number that the content begins with.
    pub fn atom(self, bytes: &[u8]) -> u16 {
        u16::from_be_bytes([bytes[self.start + 3], bytes[self.start + 4]])
    }
}

#[derive(Debug, PartialEq, Eq)]
pub enum Fault {
    /// Off the grammar.
    Broken(usize),
    /// A field deeper than 64.
    Deep(usize),
}

const DEEPEST: usize = 64;

/// The one field with this tag that the bytes are, and all below it.
pub fn read(root: u8, bytes: &[u8]) -> Result<Vec<Span>, Fault> {
    let mut reader = Reader {
        bytes,
        spans: Vec::new(),
    };
    let end = match bytes.first() {
        Some(tag) if *tag == root => reader.field(0, bytes.len(), 1)?,
        _ => return Err(Fault::Broken(0)),
    };
    match end == bytes.len() {
        true => Ok(reader.spans),
        false => Err(Fault::Broken(end)),
    }
}

struct Reader<'a> {
    bytes: &'a [u8],
    spans: Vec<Span>,
}

impl Reader<'_> {
    /// Reads the field whose tag, at `start`, may stand there; gives its end.
    fn field(&mut self, start: usize, limit: usize, depth: usize) -> Result<usize, Fault> {
        let end = match self.bytes[start..limit] {
            [_, high, low, ..] => start + 3 + usize::from(u16::from_be_bytes([high, low])),
            _ => return Err(Fault::Broken(start)),
        };
        if end > limit {
            return Err(Fault::Broken(start));
        }
        if depth > DEEPEST {
            return Err(Fault::Deep(start));
        }
        let tag = self.bytes[start];
        self.spans.push(Span { tag, start });
        let Some(fixed) = fixed_length(tag, &self.bytes[start + 3..end]) else {
            return Err(Fault::Broken(start));
        };
        let missing = self.parts(slots(tag), start + 3 + fixed, end, depth + 1)?;
        match missing {
            true => Err(Fault::Broken(start)),
            false => Ok(end),
        }
    }

    /// Reads parts to the end; says whether a part is missing there.
    fn parts(
        &mut self,
        mut slots: &[Slot],
        mut at: usize,
        end: usize,
        depth: usize,
    ) -> Result<bool, Fault> {
        while at < end {
            let Some(skipped) = skipped(slots, self.bytes[at]) else {
                return Err(Fault::Broken(at));
            };
            at = self.field(at, end, depth)?;
            slots = match slots[skipped].times {
                Times::Many => &slots[skipped..],
                Times::One | Times::Optional => &slots[skipped + 1..],
            };
        }
        Ok(slots.iter().any(|slot| slot.times == Times::One))
    }
}

/// How many slots are passed over for a part with this tag; none where it may not stand.
fn skipped(slots: &[Slot], tag: u8) -> Option<usize> {
    let first = slots.iter().position(|slot| slot.tags.contains(&tag))?;
    let needed = slots[..first].iter().any(|slot| slot.times == Times::One);
    (!needed).then_some(first)
}
