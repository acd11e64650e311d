//! Trees with something exchanged (bent), and bytes that are damaged.

use super::trees::Trees;
use crate::{
    field::Field,
    grammar::{EXPRESSIONS, ITEMS},
    lent::Lent,
    read::read,
    rng::Rng,
};

/// Tags whose fixed bytes begin with an atom; six bytes are an id or a literal.
const NAMING: [u8; 16] = [
    0x10, 0x12, 0x20, 0x21, 0x22, 0x24, 0x43, 0x50, 0x53, 0x54, 0x60, 0x61, 0x70, 0x72, 0x77, 0x78,
];

/// Exchanges one to three things of a module.
pub fn bend(rng: &mut Rng, lent: &Lent, tree: &mut Field) {
    for _ in 0..1 + rng.below(3) {
        match rng.below(5) {
            0 => exchange_name(rng, tree),
            1 => copy_id(rng, tree),
            2 => exchange_expression(rng, lent, tree),
            3 => exchange_items(rng, tree),
            _ => insert_item(rng, lent, tree),
        }
    }
}

/// The number of a random field among those with these tags.
fn find(rng: &mut Rng, tree: &mut Field, tags: &[u8]) -> Option<usize> {
    let count = tree.count();
    let first = rng.below(count);
    let mut numbers = (first..count).chain(0..first);
    numbers.find(|n| tree.nth(*n).is_some_and(|field| tags.contains(&field.tag)))
}

/// Another atom, context or stamp in one place.
fn exchange_name(rng: &mut Rng, tree: &mut Field) {
    let Some(field) = find(rng, tree, &NAMING).and_then(|n| tree.nth(n)) else {
        return;
    };
    match field.fixed.len() {
        6.. if rng.one_in(2) => field.fixed[5] = rng.below(8) as u8,
        _ => field.fixed[1] = rng.pick(&[0, 1, 0x14, 0x15, 0x16, 0x1e, 0x21, 0x27, 0x28]),
    }
}

/// The id or literal of one field in another.
fn copy_id(rng: &mut Rng, tree: &mut Field) {
    let from = find(rng, tree, &NAMING).and_then(|n| tree.nth(n));
    let Some(source) = from.map(|field| field.fixed.clone()) else {
        return;
    };
    if let Some(field) = find(rng, tree, &NAMING).and_then(|n| tree.nth(n)) {
        let length = source.len().min(field.fixed.len()).min(6);
        field.fixed[..length].copy_from_slice(&source[..length]);
    }
}

/// Another expression in the place of one. The target of an assignment is not always one, so some trees break.
fn exchange_expression(rng: &mut Rng, lent: &Lent, tree: &mut Field) {
    let Some(n) = find(rng, tree, EXPRESSIONS) else {
        return;
    };
    let fresh = Trees::new(rng, lent).expression();
    if let Some(field) = tree.nth(n) {
        *field = fresh;
    }
}

/// Two items exchanged, or one left out, or one repeated.
fn exchange_items(rng: &mut Rng, tree: &mut Field) {
    let count = tree.parts.len();
    if count == 0 {
        return;
    }
    let (a, b) = (rng.below(count), rng.below(count));
    match rng.below(4) {
        0 => drop(tree.parts.remove(a)),
        1 => tree.parts.insert(b, tree.parts[a].clone()),
        _ => tree.parts.swap(a, b),
    }
}

fn insert_item(rng: &mut Rng, lent: &Lent, tree: &mut Field) {
    let at = rng.below(tree.parts.len() + 1);
    let item = Trees::new(rng, lent).part(ITEMS);
    tree.parts.insert(at, item);
}

/// The bytes of a field that is damaged once or twice, in its parts or in its bytes.
pub fn damaged(rng: &mut Rng, mut field: Field) -> Vec<u8> {
    if rng.one_in(2) {
        damage_parts(rng, &mut field);
    }
    let root = field.tag;
    let mut bytes = field.bytes();
    for _ in 0..rng.below(3) {
        damage_bytes(rng, root, &mut bytes);
    }
    bytes
}

/// Tags of every kind, and some that document 01 does not have.
const TAGS: [u8; 24] = [
    0x00, 0x01, 0x10, 0x13, 0x15, 0x22, 0x23, 0x2f, 0x30, 0x40, 0x42, 0x45, 0x49, 0x50, 0x53, 0x57,
    0x60, 0x63, 0x6f, 0x71, 0x73, 0x75, 0x80, 0x83,
];

/// A part too few, too many or misplaced, fixed bytes too few or changed; the lengths around stay right.
fn damage_parts(rng: &mut Rng, root: &mut Field) {
    let n = rng.below(root.count());
    let Some(field) = root.nth(n) else {
        return;
    };
    let part = field
        .parts
        .len()
        .checked_sub(1)
        .map(|last| rng.below(last + 1));
    match (rng.below(6), part) {
        (0, Some(part)) => drop(field.parts.remove(part)),
        (1, Some(part)) => field.parts.insert(part, field.parts[part].clone()),
        (2, Some(part)) => field.parts.swap(0, part),
        (3, _) => drop(field.fixed.pop()),
        // Kind bytes stand at the front, behind another one, or behind an id.
        (4, _) => match field.fixed.len() {
            0 => field.fixed.push(rng.byte()),
            length => field.fixed[rng.pick(&[0, 1, 6, 7]).min(length - 1)] = rng.below(4) as u8,
        },
        _ => field.tag = rng.pick(&TAGS),
    }
}

/// A byte changed, taken out or put in, a length bent, the end cut off, or zeros behind.
fn damage_bytes(rng: &mut Rng, root: u8, bytes: &mut Vec<u8>) {
    if bytes.is_empty() {
        return;
    }
    let at = rng.below(bytes.len());
    match rng.below(8) {
        0 => bytes[at] = rng.byte(),
        1 => bytes[at] = rng.pick(&TAGS),
        2 => bytes[at] ^= 1 << rng.below(8),
        3 => drop(bytes.remove(at)),
        4 => bytes.insert(at, rng.byte()),
        5 => bytes.truncate(at),
        6 => bytes.resize(bytes.len() + 1 + rng.below(4), 0),
        _ => bend_length(rng, root, bytes),
    }
}

/// One or two more or less in the length of a field.
fn bend_length(rng: &mut Rng, root: u8, bytes: &mut [u8]) {
    let Ok(spans) = read(root, bytes) else {
        return;
    };
    let low = rng.pick(&spans).start + 2;
    bytes[low] = bytes[low].wrapping_add(rng.pick(&[1, 2, 255, 254]));
}
