//! Module detection.

use crate::{calls, refusal, Modes, Refusal};

/// Whether the module `tree` is an ES module. Where calls of `require` do not count, every module
/// is one.
///
/// ```
/// // `f();` alone may be CommonJS.
/// let tree = [1, 0, 15, 0x44, 0, 12, 0x65, 0, 9, 0x60, 0, 6, 0, 26, 0, 0, 0, 2];
/// use tychodrel::{is_es6, Modes};
/// assert_eq!(is_es6(Modes { require: true }, &tree), Ok(false));
/// assert_eq!(is_es6(Modes::default(), &tree), Ok(true));
/// ```
pub fn is_es6(modes: Modes, tree: &[u8]) -> Result<bool, Refusal> {
    refusal::accepted(calls::detect(modes.bits(), tree)).map(|es6| es6 == 1)
}
