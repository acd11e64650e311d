//! The verdict on a resolving. Its refusals are found here with number and place; the Rust has to fail in the same way,
//! and to give the same numbers.

use oracle::{Failure, Resolved};

use super::{
    broken,
    counts::{fault_of_table, file_of, scope_bytes, scope_of, MOST_FILES},
    is_string_name,
};
use crate::{
    lent::requested,
    read::{read, Fault, Span},
    verdict::{Results, Verdict},
};

pub fn verdict(files: &[u8], table: &[u8], records: &[u8]) -> Verdict {
    let (modules, too_many) = requested(files);
    let entry = scope_of(&modules);
    let refused = |number, place| Verdict::refused(number, place, entry.clone());
    if too_many {
        return refused(5, 0);
    }
    if let Some(number) = fault_of_table(table) {
        return refused(number, 0);
    }
    let rust = || oracle::resolve(files, table, records);
    let spans = match read(0x02, records) {
        Ok(spans) => spans,
        Err(Fault::Broken(place) | Fault::Deep(place)) => {
            return broken(rust(), refused(10, place));
        }
    };
    match numbered(modules, table, records, &spans) {
        Err(place) => refused(5, place),
        Ok(modules) => {
            let fault = first_fault(table, records, &spans);
            with_numbers(scope_of(&modules), fault, rust())
        }
    }
}

fn is_record(tag: u8) -> bool {
    (0x80..=0x82).contains(&tag)
}

/// The files of the scope once every source that resolves has its number, or the record that asks for one too many.
fn numbered(
    mut modules: Vec<u16>,
    table: &[u8],
    records: &[u8],
    spans: &[Span],
) -> Result<Vec<u16>, usize> {
    for span in spans.iter().filter(|span| is_record(span.tag)) {
        match file_of(table, span.atom(records)) {
            Some(file) if modules.contains(&file) => {}
            Some(_) if modules.len() == MOST_FILES => return Err(span.start),
            Some(file) => modules.push(file),
            None => {}
        }
    }
    Ok(modules)
}

/// The first source that does not resolve (11) or string name of one that does (6), with its place.
fn first_fault(table: &[u8], records: &[u8], spans: &[Span]) -> Option<(u64, usize)> {
    spans.iter().find_map(|span| match span.tag {
        tag if is_record(tag) => {
            let resolves = file_of(table, span.atom(records)).is_some();
            (!resolves).then_some((11, span.start))
        }
        0x20 if records[span.content() + 6] == 2 => Some((6, span.start)),
        _ => None,
    })
}

/// The verdict where all numbers are given.
fn with_numbers(
    scope: Vec<u8>,
    fault: Option<(u64, usize)>,
    rust: Result<Resolved, Failure>,
) -> Verdict {
    match (fault, rust) {
        (Some((11, place)), Err(Failure::Unresolved(modules)))
            if scope_bytes(&modules) == scope =>
        {
            Verdict::refused(11, place, scope)
        }
        (Some((6, place)), Err(Failure::Panic(text))) if is_string_name(&text) => {
            Verdict::refused(6, place, scope)
        }
        (None, Err(Failure::TooLong)) => Verdict::refused(9, 0, scope),
        (None, Ok(resolved)) => {
            let results = Results {
                value: 0,
                buffers: vec![resolved.list],
                scope: scope_bytes(&resolved.scope),
            };
            Verdict::accepted(results, scope)
        }
        (fault, rust) => {
            let failure = rust.err();
            Verdict::conflict(format!("fault {fault:?}, the Rust says {failure:?}"))
        }
    }
}
