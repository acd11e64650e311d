//! Lengths of lent trees, externals and tables, and a source that is named twice.

use super::{card, extract, numbers, past, plain, results::padding, A, M};
use crate::{
    field::{call, ident, list_bytes, module, statement, Field},
    request::{Expected, Request},
    rng::Rng,
};

/// The module of these items and padding, `length` bytes long.
fn module_of(length: usize, mut items: Vec<Field>) -> Vec<u8> {
    let so_far = module(items.clone()).len();
    items.push(padding(length - so_far));
    module(items).bytes()
}

pub fn extracted_tree(_: &mut Rng, over: bool) -> (Request, Expected) {
    let lent = plain();
    let tree = module_of(32_768 + usize::from(over), card());
    (Request::Extract { lent, tree }, past(over, 1))
}

/// No module is longer than the limit of detection: the byte past it stands behind the module.
pub fn detected_tree(rng: &mut Rng, over: bool) -> (Request, Expected) {
    let config = rng.one_in(2);
    let mut tree = module_of(65_538, vec![statement(call(ident(A), ident(A)))]);
    tree.resize(tree.len() + usize::from(over), 0);
    (Request::Detect { config, tree }, past(over, 1))
}

pub fn externals(rng: &mut Rng, over: bool) -> (Request, Expected) {
    let mut lent = plain();
    lent.externals = list_bytes(&numbers(512).collect::<Vec<_>>());
    if over {
        let length = rng.pick(&[1_023, 1_025, 1_026]);
        lent.externals.resize(length, 0);
    }
    (extract(lent, card()), past(over, 1))
}

/// A table of 1,024 rows, of which the last one is asked for.
fn long_table() -> Vec<u8> {
    let rows = numbers(1_023).flat_map(|source| [source, 10]);
    list_bytes(&rows.chain([M.0, 10]).collect::<Vec<_>>())
}

pub fn table(rng: &mut Rng, over: bool) -> (Request, Expected) {
    let mut lent = plain();
    lent.table = long_table();
    if over {
        let length = rng.pick(&[4_095, 4_097, 4_100]);
        lent.table.resize(length, 0);
    }
    (extract(lent, card()), past(over, 1))
}

pub fn source_twice(rng: &mut Rng, over: bool) -> (Request, Expected) {
    let mut table = long_table();
    if over {
        let row = 4 * rng.below(1_023);
        table.copy_within(4_092..4_094, row);
    }
    let resolve = Request::Resolve {
        files: Vec::new(),
        table,
        records: vec![0x02, 0, 0],
    };
    (resolve, past(over, 2))
}
