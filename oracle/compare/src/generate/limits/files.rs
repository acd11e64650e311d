//! The files of a scope: lent ones, the own one, and those that sources ask for.

use super::{card, extract, numbers, past, past_at_last, plain, rows, A, LOCAL, M, N, X};
use crate::{
    field::{
        call, ident, import, list_bytes, member, namespace, pair_bytes, property, require,
        statement, variable, Field, REQUIRE,
    },
    lent::Lent,
    request::{Expected, Request},
    rng::Rng,
};

/// 256 lent files, with the own one among them, and one of them twice. One more is refused before a broken table.
pub fn lent(rng: &mut Rng, over: bool) -> (Request, Expected) {
    let mut files: Vec<u16> = numbers(254 + usize::from(over)).collect();
    files.extend([9, 10]);
    let again = rng.pick(&files);
    files.insert(rng.below(files.len()), again);
    let mut lent = plain();
    lent.files = list_bytes(&files);
    if over && rng.one_in(2) {
        lent.table.push(0);
    }
    (extract(lent, card()), past(over, 5))
}

pub fn own(_: &mut Rng, over: bool) -> (Request, Expected) {
    let mut lent = plain();
    lent.files = list_bytes(&numbers(255 + usize::from(over)).collect::<Vec<_>>());
    (extract(lent, Vec::new()), past(over, 5))
}

/// The own file, and one for each import or require.
pub fn imported(rng: &mut Rng, over: bool) -> (Request, Expected) {
    let sources = numbers(255 + usize::from(over));
    let lent = Lent::plain(true, &rows(sources.clone()));
    let by_require = rng.one_in(2);
    let item = |source| match by_require {
        true => statement(require(0, (source, 1))),
        false => import((source, 1), Vec::new()),
    };
    past_at_last(over, 5, &[0x10, 0x65], lent, sources.map(item).collect())
}

/// `import * as a from './m'; const x = a.require('./n');` asks for the file of './n' in the second pass.
pub fn of_second_pass(_: &mut Rng, over: bool) -> (Request, Expected) {
    let mut lent = plain();
    let mut files: Vec<u16> = numbers(253 + usize::from(over)).collect();
    files.extend([9, 10]);
    lent.files = list_bytes(&files);
    let callee = member(ident(A), property(0x70, REQUIRE));
    let argument = Field::new(0x61, pair_bytes(N), Vec::new());
    let declaration = variable((X, LOCAL), call(callee, argument));
    let items = vec![import(M, vec![namespace(A)]), declaration];
    past_at_last(over, 5, &[0x01], lent, items)
}

pub fn resolved(rng: &mut Rng, over: bool) -> (Request, Expected) {
    let sources = numbers(256 + usize::from(over));
    let table = list_bytes(&rows(sources.clone()));
    let tag = rng.pick(&[0x80, 0x81, 0x82]);
    let list = sources.map(|source| Field::new(tag, pair_bytes((source, 1)), Vec::new()));
    let resolve = Request::Resolve {
        files: Vec::new(),
        table,
        records: Field::new(0x02, Vec::new(), list.collect()).bytes(),
    };
    (resolve, past(over, 5))
}
