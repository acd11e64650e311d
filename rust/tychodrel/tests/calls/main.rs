//! The typed calls against document 01: its cards, every refusal, lists and scope.

mod cards;
mod lists;
mod refusals;
mod support;
#[cfg(feature = "alloc")]
mod to_vec;
mod words;
