//! Depth: expressions, statements and patterns nested in all ways.

use super::{extract, past, plain, A, M};
use crate::{
    field::{block, call, computed, ident, member, module, property, require, statement, Field},
    request::{Expected, Request},
    rng::Rng,
};

pub fn extracted(rng: &mut Rng, over: bool) -> (Request, Expected) {
    let items = vec![item(rng, 63 + usize::from(over))];
    (extract(plain(), items), past(over, 4))
}

pub fn detected(rng: &mut Rng, over: bool) -> (Request, Expected) {
    let config = rng.one_in(2);
    let tree = module(vec![item(rng, 63 + usize::from(over))]).bytes();
    (Request::Detect { config, tree }, past(over, 4))
}

/// An item of this depth.
fn item(rng: &mut Rng, depth: usize) -> Field {
    match rng.below(4) {
        0 => nested_statement(rng, depth),
        1 => {
            let pattern = nested_pattern(rng, depth - 2);
            let declarator = Field::new(0x42, Vec::new(), vec![pattern]);
            Field::new(0x41, Vec::new(), vec![declarator])
        }
        _ => statement(nested_expression(rng, depth - 1)),
    }
}

/// Wraps a field until it has this depth. One way of wrapping is kept in half of the cases.
fn nest(
    rng: &mut Rng,
    depth: usize,
    leaf: Field,
    ways: usize,
    wrap: fn(usize, Field) -> Field,
) -> Field {
    let kept = rng.one_in(2).then(|| rng.below(ways));
    let mut field = leaf;
    while field.depth() < depth {
        let way = kept.unwrap_or_else(|| rng.below(ways));
        let wrapped = wrap(way, field.clone());
        field = match wrapped.depth() <= depth {
            true => wrapped,
            false => wrap(0, field),
        };
    }
    field
}

fn nested_expression(rng: &mut Rng, depth: usize) -> Field {
    let leaf = match rng.one_in(2) {
        true => require(0, M),
        false => ident(A),
    };
    nest(rng, depth, leaf, 16, wrap_expression)
}

/// Way 0 adds one level, others up to three.
fn wrap_expression(way: usize, e: Field) -> Field {
    let field = |tag, fixed, parts| Field::new(tag, fixed, parts);
    match way {
        0 => field(0x6e, vec![], vec![e]),
        1 => member(e, property(0x70, 0x16)),
        2 => member(ident(A), computed(e)),
        3 => field(0x64, vec![], vec![computed(e)]),
        4 => call(e, ident(A)),
        5 => call(ident(A), e),
        6 => {
            let target = member(e, property(0x70, 0x16));
            field(0x66, vec![], vec![target, ident(A)])
        }
        7 => field(0x67, vec![], vec![e]),
        8 => field(0x67, vec![], vec![block(vec![statement(e)])]),
        9 => field(0x68, vec![], vec![block(vec![statement(e)])]),
        10 => field(0x69, vec![], vec![field(0x78, vec![0, 0x16], vec![e])]),
        11 => field(0x6a, vec![], vec![ident(A), e]),
        12 => field(0x6b, vec![0], vec![e, ident(A)]),
        13 => field(0x6c, vec![], vec![ident(A), ident(A), e]),
        14 => field(0x6d, vec![0], vec![e]),
        _ => field(0x66, vec![], vec![field(0x50, vec![0; 6], vec![]), e]),
    }
}

fn nested_statement(rng: &mut Rng, depth: usize) -> Field {
    nest(rng, depth, statement(require(0, M)), 4, wrap_statement)
}

fn wrap_statement(way: usize, s: Field) -> Field {
    match way {
        0 => block(vec![s]),
        1 => Field::new(0x46, Vec::new(), vec![ident(A), block(Vec::new()), s]),
        2 => Field::new(0x48, Vec::new(), vec![ident(A), s]),
        _ => Field::new(0x43, vec![0; 6], vec![block(vec![s])]),
    }
}

fn nested_pattern(rng: &mut Rng, depth: usize) -> Field {
    let leaf = Field::new(0x54, vec![0; 6], Vec::new());
    let leaf = Field::new(0x52, Vec::new(), vec![leaf]);
    nest(rng, depth, leaf, 4, wrap_pattern)
}

fn wrap_pattern(way: usize, p: Field) -> Field {
    match way {
        0 => Field::new(0x51, Vec::new(), vec![p]),
        1 => Field::new(0x56, Vec::new(), vec![p]),
        2 => Field::new(0x55, Vec::new(), vec![p, ident(A)]),
        _ => {
            let entry = Field::new(0x53, vec![0, 0x16], vec![p]);
            Field::new(0x52, Vec::new(), vec![entry])
        }
    }
}
