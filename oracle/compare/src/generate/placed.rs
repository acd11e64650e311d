//! Well placed trees: imports first, with distinct sources and locals in own local context, a namespace alone in its
//! import, and namespace ids only in the uses that document 01 lists.

use super::{attributes, trees::Trees};
use crate::{
    field::{import, module, named, namespace, pair_bytes, Field, Id, Literal},
    grammar::ITEMS,
    lent::{Lent, SOURCES},
    rng::Rng,
};

/// Atoms of imported locals; no other id of a generated tree has one of them.
const LOCALS: [u16; 8] = [0x21, 0x22, 0x23, 0x24, 0x25, 0x26, 0x27, 0x28];

pub fn tree(rng: &mut Rng, lent: &Lent) -> Field {
    let (local, _) = lent.own_contexts();
    let count = 1 + rng.below(4);
    let first = rng.below(SOURCES.len());
    let mut ids = LOCALS.map(|atom| (atom, local)).to_vec();
    let mut imports = Vec::new();
    let mut namespaces = Vec::new();
    for i in 0..count {
        let source = SOURCES[(first + i) % SOURCES.len()];
        let source = (source, 1 + rng.below(2) as u32);
        if rng.one_in(3) {
            imports.push(of_names(rng, source, &mut ids));
        } else {
            namespaces.extend(ids.pop());
            imports.push(of_namespace(rng, source, namespaces[namespaces.len() - 1]));
        }
    }
    let mut trees = Trees::new(rng, lent);
    trees.namespaces = namespaces;
    let not_imports = &ITEMS[1..];
    imports.extend(trees.items(not_imports));
    module(imports)
}

fn of_namespace(rng: &mut Rng, source: Literal, id: Id) -> Field {
    let mut parts = vec![namespace(id)];
    if rng.one_in(4) {
        parts.push(attributes::any(rng));
    }
    import(source, parts)
}

/// An import of up to two names, taken from `ids`, the second by default.
fn of_names(rng: &mut Rng, source: Literal, ids: &mut Vec<Id>) -> Field {
    let count = rng.below(3).min(ids.len() - 1);
    let mut parts = Vec::new();
    for id in ids.drain(..count) {
        parts.push(match parts.is_empty() {
            true => named(id),
            false => Field::new(0x21, pair_bytes(id), Vec::new()),
        });
    }
    import(source, parts)
}
