//! Refusals in words.

use core::error::Error;

use tychodrel::Refusal;

use crate::support::at;

#[test]
fn a_refusal_says_what_where_and_what_to_do() {
    let words = "refusal 4: a field deeper than 64; \
        place 192: offset of that field in the lent tree. \
        The script nests too deep at the place. \
        Move the inner part into a variable or a function of its own at module level.";
    let error: &dyn Error = &at(Refusal::TOO_DEEP, 192);
    assert_eq!(error.to_string(), words);
}

#[test]
fn every_number_has_its_own_words() {
    let remedy = |number| at(number, 0).remedy();
    let unknown = remedy(0);
    for number in 1..=Refusal::NOT_GIVEN {
        assert_ne!(remedy(number), unknown);
        assert!((1..number).all(|other| remedy(other) != remedy(number)));
    }
    assert_eq!(remedy(Refusal::NOT_GIVEN + 1), unknown);
    assert_eq!(remedy(255), unknown);
}
