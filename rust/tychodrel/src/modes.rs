//! What a host chooses for a call.

/// Modes of a call. By default all are off.
#[derive(Clone, Copy, Debug, Default, PartialEq, Eq)]
pub struct Modes {
    /// Whether calls of `require` count.
    pub require: bool,
}

impl Modes {
    /// The modes as bits, for the functions of [`calls`](crate::calls): 1 is `require`. There, bits
    /// without a meaning change nothing.
    pub const fn bits(self) -> u32 {
        self.require as u32
    }
}
