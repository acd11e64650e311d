//! The grammar of document 01 as a table: the fixed bytes of each tag, and the slots for its parts.

/// How often a slot is filled.
#[derive(Clone, Copy, PartialEq, Eq)]
pub enum Times {
    One,
    Optional,
    Many,
}

pub struct Slot {
    pub times: Times,
    pub tags: &'static [u8],
}

const fn one(tags: &'static [u8]) -> Slot {
    let times = Times::One;
    Slot { times, tags }
}

const fn optional(tags: &'static [u8]) -> Slot {
    let times = Times::Optional;
    Slot { times, tags }
}

const fn many(tags: &'static [u8]) -> Slot {
    let times = Times::Many;
    Slot { times, tags }
}

pub const ITEMS: &[u8] = &[
    0x10, 0x11, 0x12, 0x13, 0x14, 0x40, 0x41, 0x43, 0x44, 0x45, 0x46, 0x47, 0x48,
];
const STATEMENTS: &[u8] = &[0x40, 0x41, 0x43, 0x44, 0x45, 0x46, 0x47, 0x48];
const PATTERNS: &[u8] = &[0x50, 0x51, 0x52, 0x55, 0x56];
pub const EXPRESSIONS: &[u8] = &[
    0x60, 0x61, 0x62, 0x63, 0x64, 0x65, 0x66, 0x67, 0x68, 0x69, 0x6a, 0x6b, 0x6c, 0x6d, 0x6e,
];
const CALLEES: &[u8] = &[
    0x60, 0x61, 0x62, 0x63, 0x64, 0x65, 0x66, 0x67, 0x68, 0x69, 0x6a, 0x6b, 0x6c, 0x6d, 0x6e, 0x73,
    0x74,
];
const ARROW_BODIES: &[u8] = &[
    0x45, 0x60, 0x61, 0x62, 0x63, 0x64, 0x65, 0x66, 0x67, 0x68, 0x69, 0x6a, 0x6b, 0x6c, 0x6d, 0x6e,
];
const SPECIFIERS: &[u8] = &[0x20, 0x21, 0x22];

/// The parts of a tag's field, in order.
pub fn slots(tag: u8) -> &'static [Slot] {
    match tag {
        0x01 => const { &[many(ITEMS)] },
        0x02 => const { &[many(&[0x80]), many(&[0x81]), many(&[0x82]), many(&[0x83])] },
        0x10 => const { &[many(SPECIFIERS), optional(&[0x2f])] },
        0x11 => const { &[many(&[0x23, 0x24])] },
        0x13 => const { &[one(&[0x41, 0x43])] },
        0x2f => const { &[many(&[0x30])] },
        0x80 | 0x81 => const { &[many(SPECIFIERS)] },
        0x41..=0x48 => statement_slots(tag),
        0x51..=0x56 => pattern_slots(tag),
        0x14 | 0x63..=0x6e | 0x71 | 0x75 | 0x78 => expression_slots(tag),
        _ => &[],
    }
}

fn statement_slots(tag: u8) -> &'static [Slot] {
    match tag {
        0x41 => const { &[many(&[0x42])] },
        0x42 => const { &[one(PATTERNS), optional(EXPRESSIONS)] },
        0x43 => const { &[many(PATTERNS), one(&[0x45])] },
        0x44 => const { &[one(EXPRESSIONS)] },
        0x45 => const { &[many(STATEMENTS)] },
        0x46 => const { &[one(EXPRESSIONS), one(STATEMENTS), optional(STATEMENTS)] },
        0x47 => const { &[optional(EXPRESSIONS)] },
        _ => const { &[one(EXPRESSIONS), one(STATEMENTS)] },
    }
}

fn pattern_slots(tag: u8) -> &'static [Slot] {
    match tag {
        0x51 => const { &[many(PATTERNS)] },
        0x52 => const { &[many(&[0x53, 0x54])] },
        0x54 => const { &[optional(EXPRESSIONS)] },
        0x55 => const { &[one(PATTERNS), one(EXPRESSIONS)] },
        _ => const { &[one(PATTERNS)] },
    }
}

fn expression_slots(tag: u8) -> &'static [Slot] {
    match tag {
        0x63 => const { &[one(EXPRESSIONS), one(&[0x70, 0x71, 0x72])] },
        0x64 => const { &[one(&[0x70, 0x71])] },
        0x65 => const { &[one(CALLEES), many(&[0x75])] },
        0x66 => const { &[one(&[0x50, 0x63]), one(EXPRESSIONS)] },
        0x67 => const { &[many(PATTERNS), one(ARROW_BODIES)] },
        0x68 => const { &[many(PATTERNS), one(&[0x45])] },
        0x69 => const { &[many(&[0x77, 0x78])] },
        0x6a => const { &[many(EXPRESSIONS)] },
        0x6b => const { &[one(EXPRESSIONS), one(EXPRESSIONS)] },
        0x6c => const { &[one(EXPRESSIONS), one(EXPRESSIONS), one(EXPRESSIONS)] },
        _ => const { &[one(EXPRESSIONS)] },
    }
}

/// How many fixed bytes the content begins with; none where they are cut off or a kind byte is not listed.
pub fn fixed_length(tag: u8, content: &[u8]) -> Option<usize> {
    let length = match tag {
        0x11 => match content.first()? {
            0 => 1,
            1 => 7,
            _ => return None,
        },
        0x20 => 6 + outside_length(content.get(6..)?)?,
        0x23 => match outside_length(content)? {
            1 => return None,
            original => original + outside_length(content.get(original..)?)?,
        },
        0x30 => match content {
            [0 | 1, 0 | 1, key, rest @ ..] if rest.len() >= *key as usize => content.len(),
            _ => return None,
        },
        0x75 => match content.first()? {
            0 | 1 => 1,
            _ => return None,
        },
        0x10 | 0x12 | 0x21 | 0x22 | 0x24 | 0x43 | 0x50 | 0x54 | 0x60 | 0x61 | 0x77 => 6,
        0x80..=0x82 => 6,
        0x53 | 0x70 | 0x72 | 0x78 | 0x83 => 2,
        0x62 => 8,
        0x6b | 0x6d => 1,
        _ => 0,
    };
    (length <= content.len()).then_some(length)
}

/// A name outside: byte 0, or 1 and I, or 2 and A.
fn outside_length(bytes: &[u8]) -> Option<usize> {
    match bytes.first()? {
        0 => Some(1),
        1 => Some(7),
        2 => Some(3),
        _ => None,
    }
}
