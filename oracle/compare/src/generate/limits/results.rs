//! Results whose content has 65,535 bytes, or one more.

use super::{extract, numbers, past, plain, use_of_a, A, LOCAL, M, ROWS, UNRESOLVED, X};
use crate::{
    field,
    field::{attribute, default, import, list_bytes, named, namespace, pair_bytes, require, Field},
    request::{Expected, Request},
    rng::Rng,
};

/// The longest content, or one more.
fn content(over: bool) -> usize {
    65_535 + usize::from(over)
}

/// An import of `length` bytes, which both passes copy.
pub fn padding(length: usize) -> Field {
    let empty = 3 + 6 + 3 + 3 + 3;
    let value = vec![b'p'; length - empty];
    let attributes = field::attributes(vec![attribute(b"", &value)]);
    import(UNRESOLVED, vec![attributes])
}

/// Metadata makes each import of 9 bytes 47 bytes long.
pub fn work(_: &mut Rng, over: bool) -> (Request, Expected) {
    let count = 1_390;
    let mut items = vec![import(M, Vec::new()); count];
    items.push(padding(content(over) - 47 * count));
    (extract(plain(), items), past(over, 9))
}

/// 90 imports of one namespace get all its 60 usages. Their stamps differ, which keeps the usages out of the record.
pub fn out(_: &mut Rng, over: bool) -> (Request, Expected) {
    let (imports, uses) = (90, 60);
    let stamps = 1..=imports as u32;
    let mut items: Vec<Field> = stamps
        .map(|stamp| import((M.0, stamp), vec![namespace(A)]))
        .collect();
    items.extend(vec![use_of_a(X); uses]);
    let so_far = imports * (47 + 10 * uses) + 12 * uses;
    items.push(padding(content(over) - so_far));
    (extract(plain(), items), past(over, 9))
}

/// A variable's pattern has each of its ids, of 9 bytes, named in two lazy records, there of 10; its call and the import
/// have a record each.
pub fn records(_: &mut Rng, over: bool) -> (Request, Expected) {
    let (ids, specifiers) = match over {
        true => (3_275, Vec::new()),
        false => (3_274, vec![named(A), default(A)]),
    };
    let ids = numbers(ids).map(|atom| Field::new(0x50, pair_bytes((atom, LOCAL)), Vec::new()));
    let pattern = Field::new(0x51, Vec::new(), ids.collect());
    let declarator = Field::new(0x42, Vec::new(), vec![pattern, require(0, M)]);
    let items = vec![
        import(UNRESOLVED, specifiers),
        Field::new(0x41, Vec::new(), vec![declarator]),
    ];
    (extract(plain(), items), past(over, 9))
}

/// Each record takes 22 bytes in the list, each name 10 more: a content of 65,534 or 65,536 bytes.
pub fn list(_: &mut Rng, over: bool) -> (Request, Expected) {
    let (count, names) = if over { (2_978, 2) } else { (2_977, 4) };
    let record = |parts| Field::new(0x81, pair_bytes(M), parts);
    let mut list = vec![record(vec![named(A); names])];
    list.resize(count, record(Vec::new()));
    let resolve = Request::Resolve {
        files: Vec::new(),
        table: list_bytes(&ROWS),
        records: Field::new(0x02, Vec::new(), list).bytes(),
    };
    (resolve, past(over, 9))
}

/// A context of three digits takes 37 bytes, an attribute without key 6 and its value.
pub fn attributes(_: &mut Rng, over: bool) -> (Request, Expected) {
    let value = vec![b'v'; content(over) - 37 - 6];
    let old = field::attributes(vec![attribute(b"", &value)]);
    let encode = Request::Encode {
        injected: false,
        context: Some(123),
        attributes: old.bytes(),
    };
    (encode, past(over, 9))
}
