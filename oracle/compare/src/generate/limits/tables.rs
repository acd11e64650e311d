//! What extraction holds: imported ids, usages, collected and lazy records.

use super::{extract, numbers, past, past_at_last, plain, use_of_a, A, LOCAL, M, N};
use crate::{
    field::{block, default, ident, import, named, namespace, require, statement, variable, Field},
    request::{Expected, Request},
    rng::Rng,
};

/// Tags of the specifiers, and of what the second pass stands for: its place is the module's.
const SPECIFIERS: [u8; 3] = [0x20, 0x21, 0x22];
const SECOND_PASS: [u8; 1] = [0x01];

/// Specifiers of all three forms with different ids.
fn specifiers(rng: &mut Rng, count: usize) -> Vec<Field> {
    let specifier = |atom| match rng.below(3) {
        0 => named((atom, LOCAL)),
        1 => namespace((atom, LOCAL)),
        _ => default((atom, LOCAL)),
    };
    numbers(count).map(specifier).collect()
}

pub fn imported_ids(rng: &mut Rng, over: bool) -> (Request, Expected) {
    let mut first = specifiers(rng, 512 + usize::from(over));
    let second = first.split_off(rng.below(512));
    let items = vec![import(M, first), import(N, second)];
    past_at_last(over, 8, &SPECIFIERS, plain(), items)
}

/// An id that is dropped frees its place, and one that is held takes no other.
pub fn imported_ids_freed(rng: &mut Rng, over: bool) -> (Request, Expected) {
    let dropped = (1000 + rng.below(512) as u16, LOCAL);
    let mut items = vec![
        import(M, specifiers(rng, 512)),
        statement(ident(dropped)),
        import(M, vec![named((1, LOCAL)), named((1, LOCAL))]),
    ];
    if over {
        items.push(import(N, vec![named((2, LOCAL))]));
    }
    past_at_last(over, 8, &SPECIFIERS, plain(), items)
}

pub fn collected_imports(_: &mut Rng, over: bool) -> (Request, Expected) {
    let sources = numbers(256 + usize::from(over));
    let items = sources.map(|source| import((source, 1), Vec::new()));
    past_at_last(over, 8, &[0x10], plain(), items.collect())
}

pub fn collected_requires(_: &mut Rng, over: bool) -> (Request, Expected) {
    let sources = numbers(256 + usize::from(over));
    let items = sources.map(|source| statement(require(0, (source, 1))));
    past_at_last(over, 8, &[0x65], plain(), items.collect())
}

pub fn lazy_requires(_: &mut Rng, over: bool) -> (Request, Expected) {
    let requires = vec![statement(require(0, M)); 1_024 + usize::from(over)];
    past_at_last(over, 8, &[0x65], plain(), vec![block(requires)])
}

fn variables(count: usize) -> Vec<Field> {
    let declaration = |atom| variable((atom, LOCAL), require(0, M));
    numbers(count).map(declaration).collect()
}

/// Each variable takes a lazy record in each pass.
pub fn lazy_variables(_: &mut Rng, over: bool) -> (Request, Expected) {
    let items = variables(512 + usize::from(over));
    past_at_last(over, 8, &SECOND_PASS, plain(), items)
}

/// In a block its call takes one more.
pub fn lazy_variables_in_block(_: &mut Rng, over: bool) -> (Request, Expected) {
    let items = vec![block(variables(341 + usize::from(over)))];
    past_at_last(over, 8, &SECOND_PASS, plain(), items)
}

/// Nearly as many usages as a tree has room for: their limit is out of reach. In the end they may be dropped.
pub fn usages(rng: &mut Rng, dropped: bool) -> (Request, Expected) {
    let mut items = vec![import(M, vec![namespace(A)])];
    items.extend((0..1_600).map(|_| use_of_a(1000 + rng.below(100) as u16)));
    if dropped {
        items.push(statement(ident(A)));
    }
    (extract(plain(), items), past(false, 8))
}
