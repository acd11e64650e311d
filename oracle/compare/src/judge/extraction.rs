//! The verdict on an extraction.

use std::collections::BTreeSet;

use oracle::{Extracted, Failure};

use super::{
    broken,
    counts::{fault_of_table, file_of, scope_bytes, scope_of, MOST_FILES},
    is_string_name,
};
use crate::{
    lent::{numbers, requested, Lent},
    read::{read, Fault, Span},
    verdict::{Refusal, Results, Verdict},
};

pub fn verdict(lent: &Lent, tree: &[u8]) -> Verdict {
    let (files, too_many) = requested(&lent.files);
    let entry = scope_of(&files);
    let refused = |number, place| Verdict::refused(number, place, entry.clone());
    if too_many {
        return refused(5, 0);
    }
    if tree.len() > 32_768
        || lent.externals.len() > 1_024
        || !lent.externals.len().is_multiple_of(2)
    {
        return refused(1, 0);
    }
    if let Some(number) = fault_of_table(&lent.table) {
        return refused(number, 0);
    }
    match read(0x01, tree) {
        Err(Fault::Deep(place)) => refused(4, place),
        Err(Fault::Broken(place)) => broken(rust(lent, tree), refused(3, place)),
        Ok(_) if files.len() == MOST_FILES && !files.contains(&lent.own) => refused(5, 0),
        Ok(spans) => walked(lent, tree, &spans, entry),
    }
}

fn rust(lent: &Lent, tree: &[u8]) -> Result<Extracted, Failure> {
    let Lent {
        files,
        own,
        config,
        externals,
        table,
    } = lent;
    oracle::extract(files, *own, *config, externals, table, tree)
}

/// The verdict on a tree that both passes walk.
fn walked(lent: &Lent, tree: &[u8], spans: &[Span], entry: Vec<u8>) -> Verdict {
    let refusal = |(number, places)| Refusal {
        number,
        places,
        scope: entry.clone(),
    };
    let mut verdict = match rust(lent, tree) {
        Ok(extracted) => accepted(extracted, entry.clone()),
        Err(Failure::TooLong) => Verdict::refused(9, 0, entry.clone()),
        Err(Failure::Panic(text)) => match after_panic(&text, lent, tree, spans) {
            Some(refused) => Verdict {
                refusals: vec![refusal(refused)],
                ..Default::default()
            },
            None => return Verdict::conflict(format!("the Rust panics: {text}")),
        },
        Err(failure) => return Verdict::conflict(format!("the Rust says {failure:?}")),
    };
    let limits = limits_in_reach(lent, tree, spans);
    verdict.refusals.extend(limits.into_iter().map(refusal));
    verdict
}

fn accepted(extracted: Extracted, entry: Vec<u8>) -> Verdict {
    let barred = passes_limit(&extracted);
    let results = Results {
        value: 0,
        scope: scope_bytes(&extracted.scope),
        buffers: vec![extracted.work, extracted.out, extracted.records],
    };
    Verdict {
        barred,
        ..Verdict::accepted(results, entry)
    }
}

/// Whether the Rust's results need more files or records than there is room for.
fn passes_limit(extracted: &Extracted) -> bool {
    let spans = read(0x02, &extracted.records).unwrap_or_default();
    let count = |tag| spans.iter().filter(|span| span.tag == tag).count();
    extracted.scope.len() > MOST_FILES || count(0x80) > 256 || count(0x81) > 1_024
}

/// A refusal's number and the places that are justified.
type Refused = (u64, Vec<usize>);

/// The refusal that stands for a panic of the Rust.
fn after_panic(text: &str, lent: &Lent, tree: &[u8], spans: &[Span]) -> Option<Refused> {
    if is_string_name(text) {
        return Some((6, vec![first_string_name(lent, tree, spans)?]));
    }
    let is_private_name = text.contains("Non-computed member expression");
    is_private_name.then(|| (7, private_names(spans)))
}

/// The private names (72) of members of an identifier.
fn private_names(spans: &[Span]) -> Vec<usize> {
    let members = spans.windows(3).filter(|three| {
        let tags = [three[0].tag, three[1].tag, three[2].tag];
        tags == [0x63, 0x60, 0x72]
    });
    members.map(|three| three[2].start).collect()
}

fn places_of(spans: &[Span], tags: &[u8]) -> Vec<usize> {
    let found = spans.iter().filter(|span| tags.contains(&span.tag));
    found.map(|span| span.start).collect()
}

/// The first string name in a 23, or in a 20 of an import that resolves and is not external.
fn first_string_name(lent: &Lent, tree: &[u8], spans: &[Span]) -> Option<usize> {
    let mut counts = false;
    let mut found = spans.iter().filter(|span| {
        let content = &tree[span.content()..];
        match span.tag {
            0x10 => {
                let source = span.atom(tree);
                let external = numbers(&lent.externals).any(|name| name == source);
                counts = !external && file_of(&lent.table, source).is_some();
                false
            }
            0x20 => counts && content[6] == 2,
            0x23 => content[0] == 2 || content[7] == 2,
            _ => false,
        }
    });
    found.next().map(|span| span.start)
}

/// The refusals 5 and 8 that a tree could come to if each of its imports, literals and specifiers counted. The place of
/// the module stands for the second pass.
fn limits_in_reach(lent: &Lent, tree: &[u8], spans: &[Span]) -> Vec<Refused> {
    let with = |tags: &'static [u8]| spans.iter().filter(|span| tags.contains(&span.tag));
    let sources: BTreeSet<u16> = with(&[0x10, 0x61]).map(|span| span.atom(tree)).collect();
    let ids = with(&[0x20, 0x21, 0x22]).map(|span| &tree[span.content()..][..6]);
    let ids: BTreeSet<&[u8]> = ids.collect();
    let lazy = 3 * with(&[0x61]).count();
    let mut files: BTreeSet<u16> = numbers(&lent.files).chain([lent.own]).collect();
    files.extend(
        sources
            .iter()
            .filter_map(|source| file_of(&lent.table, *source)),
    );

    let mut refusals = Vec::new();
    if files.len() > MOST_FILES {
        refusals.push((5, places_of(spans, &[0x01, 0x10, 0x42, 0x65])));
    }
    if ids.len() > 512 || sources.len() > 256 || lazy > 1_024 {
        let tags = [0x01, 0x10, 0x20, 0x21, 0x22, 0x42, 0x65];
        refusals.push((8, places_of(spans, &tags)));
    }
    refusals
}
