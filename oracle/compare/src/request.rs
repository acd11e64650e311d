//! Requests: what is lent to one call, and the kinds in which they are generated.

use crate::lent::Lent;

pub enum Request {
    Extract {
        lent: Lent,
        tree: Vec<u8>,
    },
    Resolve {
        files: Vec<u8>,
        table: Vec<u8>,
        records: Vec<u8>,
    },
    Detect {
        config: bool,
        tree: Vec<u8>,
    },
    Encode {
        injected: bool,
        context: Option<u32>,
        attributes: Vec<u8>,
    },
    Decode {
        attributes: Vec<u8>,
    },
}

#[derive(Clone, Copy, PartialEq, Eq, Debug)]
pub enum Kind {
    Small,
    Placed,
    Bent,
    Damaged,
    Both,
    Records,
    Detect,
    Encode,
    Decode,
    Limits,
}

pub const KINDS: [Kind; 10] = [
    Kind::Small,
    Kind::Placed,
    Kind::Bent,
    Kind::Damaged,
    Kind::Both,
    Kind::Records,
    Kind::Detect,
    Kind::Encode,
    Kind::Decode,
    Kind::Limits,
];

/// A generated request.
pub struct Case {
    pub kind: Kind,
    pub request: Request,
    /// What the generator knows of the answer with long buffers.
    pub expected: Option<Expected>,
}

/// The number of an answer, 0 for acceptance, and perhaps the place.
pub struct Expected {
    pub number: u64,
    pub place: Option<usize>,
}
