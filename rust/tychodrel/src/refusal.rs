//! Why a call was refused.

use core::error::Error;
use core::fmt;

use crate::refusals::{UNKNOWN, WORDS};

/// Why a call was refused. Its text says what was found, where the place points, and what to do:
///
/// ```
/// use tychodrel::{is_es6, Modes, Refusal};
///
/// let refusal = is_es6(Modes::default(), &[]).unwrap_err();
/// assert_eq!(refusal, Refusal { number: Refusal::OFF_GRAMMAR, place: 0 });
/// assert!(refusal.to_string().starts_with(
///     "refusal 3: a field off the grammar; \
///      place 0: offset in the lent tree or the lent attributes. \
///      The bytes on the card are damaged"
/// ));
/// ```
#[derive(Clone, Copy, Debug, PartialEq, Eq, Hash)]
pub struct Refusal {
    /// Its number, one of the constants here.
    pub number: u8,
    /// Where the fault is: an offset in the lent bytes that [`Refusal::points_at`] names.
    pub place: u32,
}

/// The words of one number.
pub(crate) struct Words {
    pub(crate) found: &'static str,
    pub(crate) place: &'static str,
    pub(crate) remedy: &'static str,
}

impl Refusal {
    /// What was found.
    pub fn found(&self) -> &'static str {
        self.words().found
    }

    /// Where the place points.
    pub fn points_at(&self) -> &'static str {
        self.words().place
    }

    /// What to do.
    pub fn remedy(&self) -> &'static str {
        self.words().remedy
    }

    fn words(&self) -> &'static Words {
        let at = usize::from(self.number).checked_sub(1);
        at.and_then(|at| WORDS.get(at)).unwrap_or(&UNKNOWN)
    }
}

impl fmt::Display for Refusal {
    fn fmt(&self, f: &mut fmt::Formatter<'_>) -> fmt::Result {
        let Refusal { number, place } = self;
        let Words {
            found,
            place: points_at,
            remedy,
        } = self.words();
        write!(
            f,
            "refusal {number}: {found}; place {place}: {points_at}. {remedy}"
        )
    }
}

impl Error for Refusal {}

/// Takes an answer apart, which is number × 2^32 + place: accepted, the place is a value.
pub(crate) fn accepted(answer: u64) -> Result<u32, Refusal> {
    let [_, _, _, number, place @ ..] = answer.to_be_bytes();
    let place = u32::from_be_bytes(place);
    match number {
        0 => Ok(place),
        _ => Err(Refusal { number, place }),
    }
}
