//! Generates requests of all kinds.

mod attributes;
mod bend;
mod limits;
mod placed;
pub mod trees;

use crate::{
    field::Field,
    lent::{self, Lent},
    request::{Case, Kind, Request},
    rng::Rng,
};
use trees::Trees;

/// One request in so many is about a limit: these are long.
const LIMITS_EVERY: u64 = 200;

/// The request with this number in the row of the seed.
pub fn case(seed: u64, index: u64) -> Case {
    let mut rng = Rng::new(seed, index);
    if index % LIMITS_EVERY == LIMITS_EVERY - 1 {
        return limits::case(&mut rng, index / LIMITS_EVERY);
    }
    let kind = match rng.below(20) {
        0..=4 => Kind::Small,
        5..=7 => Kind::Placed,
        8 | 9 => Kind::Bent,
        10..=12 => Kind::Damaged,
        13..=15 => Kind::Both,
        16 | 17 => Kind::Records,
        18 => Kind::Detect,
        _ => rng.pick(&[Kind::Encode, Kind::Decode]),
    };
    Case {
        kind,
        request: request(&mut rng, kind),
        expected: None,
    }
}

fn request(rng: &mut Rng, kind: Kind) -> Request {
    match kind {
        Kind::Records => records(rng),
        Kind::Detect => Request::Detect {
            config: !rng.one_in(8),
            tree: tree_for_detection(rng),
        },
        Kind::Encode => Request::Encode {
            injected: rng.one_in(2),
            context: context(rng),
            attributes: lent_attributes(rng),
        },
        Kind::Decode => Request::Decode {
            attributes: lent_attributes(rng),
        },
        _ => {
            let lent = Lent::any(rng);
            let tree = tree(rng, &lent, kind);
            Request::Extract { lent, tree }
        }
    }
}

/// The tree of an extraction.
fn tree(rng: &mut Rng, lent: &Lent, kind: Kind) -> Vec<u8> {
    match kind {
        Kind::Small => Trees::new(rng, lent).module().bytes(),
        Kind::Placed => placed::tree(rng, lent).bytes(),
        Kind::Bent => bent_tree(rng, lent).bytes(),
        Kind::Damaged => {
            let tree = good_tree(rng, lent);
            bend::damaged(rng, tree)
        }
        _ => good_tree(rng, lent).bytes(),
    }
}

fn bent_tree(rng: &mut Rng, lent: &Lent) -> Field {
    let mut tree = placed::tree(rng, lent);
    bend::bend(rng, lent, &mut tree);
    tree
}

fn good_tree(rng: &mut Rng, lent: &Lent) -> Field {
    match rng.below(4) {
        0 => placed::tree(rng, lent),
        1 => bent_tree(rng, lent),
        _ => Trees::new(rng, lent).module(),
    }
}

/// Mostly trees without imports and exports, since with one of them the rest does not count.
fn tree_for_detection(rng: &mut Rng) -> Vec<u8> {
    let lent = Lent::plain(true, &[]);
    let mut trees = Trees::new(rng, &lent);
    trees.names.atoms.extend([1, 2, 1, 2]);
    let mut tree = trees.module();
    if !rng.one_in(4) {
        tree.parts.retain(|item| item.tag >= 0x40);
    }
    match rng.one_in(10) {
        true => bend::damaged(rng, tree),
        false => tree.bytes(),
    }
}

/// Records that are resolved by themselves.
fn records(rng: &mut Rng) -> Request {
    let lent = Lent::any(rng);
    let field = Trees::new(rng, &lent).field(0x02);
    Request::Resolve {
        files: lent::files(rng),
        table: lent::table(rng),
        records: match rng.one_in(5) {
            true => bend::damaged(rng, field),
            false => field.bytes(),
        },
    }
}

fn context(rng: &mut Rng) -> Option<u32> {
    match rng.below(4) {
        0 => None,
        1 => Some(rng.pick(&[0, 1, 9, 10, 99, 100, u32::MAX])),
        2 => Some(rng.below(1000) as u32),
        _ => Some(rng.next() as u32),
    }
}

/// Attributes as a metadata call is lent them: none, good, or damaged.
fn lent_attributes(rng: &mut Rng) -> Vec<u8> {
    match rng.below(8) {
        0 => Vec::new(),
        1 => {
            let field = attributes::any(rng);
            bend::damaged(rng, field)
        }
        _ => attributes::any(rng).bytes(),
    }
}
