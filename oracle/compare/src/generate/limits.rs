//! Requests at a limit and one past it. Each knows its answer.

mod files;
mod lengths;
mod nesting;
mod results;
mod tables;

use crate::{
    field::{ident, import, member, module, namespace, property, statement, Field, Id, Literal},
    lent::Lent,
    read::read,
    request::{Case, Expected, Kind, Request},
    rng::Rng,
};

/// Makes a request at a limit, or one past it.
type Shape = fn(rng: &mut Rng, over: bool) -> (Request, Expected);

const SHAPES: [Shape; 25] = [
    results::work,
    results::out,
    results::records,
    results::list,
    results::attributes,
    nesting::extracted,
    nesting::detected,
    lengths::extracted_tree,
    lengths::detected_tree,
    lengths::externals,
    lengths::table,
    lengths::source_twice,
    files::lent,
    files::own,
    files::imported,
    files::of_second_pass,
    files::resolved,
    tables::imported_ids,
    tables::imported_ids_freed,
    tables::collected_imports,
    tables::collected_requires,
    tables::lazy_requires,
    tables::lazy_variables,
    tables::lazy_variables_in_block,
    tables::usages,
];

/// The shapes take turns, each at its limit and then past it.
pub fn case(rng: &mut Rng, turn: u64) -> Case {
    let count = SHAPES.len() as u64;
    let shape = SHAPES[(turn / 2 % count) as usize];
    let over = turn % 2 == 1;
    let (request, expected) = shape(rng, over);
    Case {
        kind: Kind::Limits,
        request,
        expected: Some(expected),
    }
}

/// A source that resolves to file 10 (export context 5), one to file 11, and one without a row.
const M: Literal = (0x14, 1);
const N: Literal = (0x1e, 1);
const UNRESOLVED: Literal = (0x7777, 1);
const ROWS: [u16; 4] = [M.0, 10, N.0, 11];

/// The own local context, and an id and a property that trees here use.
const LOCAL: u32 = 2;
const A: Id = (0x15, LOCAL);
const X: u16 = 0x16;

fn plain() -> Lent {
    Lent::plain(true, &ROWS)
}

/// `import * as a from './m'; a.x;`
fn card() -> Vec<Field> {
    vec![import(M, vec![namespace(A)]), use_of_a(X)]
}

fn use_of_a(name: u16) -> Field {
    statement(member(ident(A), property(0x70, name)))
}

/// Different numbers, for files, sources and atoms.
fn numbers(count: usize) -> impl Iterator<Item = u16> + Clone {
    (1000..).take(count)
}

/// A table in which each source resolves to a file of its own.
fn rows(sources: impl Iterator<Item = u16>) -> Vec<u16> {
    sources.flat_map(|source| [source, source]).collect()
}

fn extract(lent: Lent, items: Vec<Field>) -> Request {
    let tree = module(items).bytes();
    Request::Extract { lent, tree }
}

/// Accepted at the limit, refused past it; the verdict knows the place.
fn past(over: bool, number: u64) -> Expected {
    Expected {
        number: if over { number } else { 0 },
        place: None,
    }
}

/// An extraction that is refused past the limit, at its last field with one of these tags.
fn past_at_last(
    over: bool,
    number: u64,
    tags: &[u8],
    lent: Lent,
    items: Vec<Field>,
) -> (Request, Expected) {
    let tree = module(items).bytes();
    let spans = read(0x01, &tree).unwrap_or_default();
    let last = spans.iter().rfind(|span| tags.contains(&span.tag));
    let place = over.then(|| last.map_or(0, |span| span.start));
    let expected = Expected {
        place,
        ..past(over, number)
    };
    (Request::Extract { lent, tree }, expected)
}
