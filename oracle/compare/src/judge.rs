//! The verdict on a request: the results of the Rust's own files, and the refusals that are justified.
//!
//! What the Rust has no notion of is counted here, by document 01: lengths of lent lists, sources named twice, faults
//! of the bytes with their places, files, and what a tree could need of extraction's tables. Where the Rust knows a
//! fault too, it has to find it as well.

mod counts;
mod extraction;
mod resolving;

use oracle::Failure;

use crate::{
    calls,
    lent::requested,
    read::{read, Fault},
    request::Request,
    verdict::{Results, Verdict},
};

/// No field is longer.
pub const LONGEST: usize = 65_538;

pub fn by_the_rust(request: &Request) -> Verdict {
    match request {
        Request::Extract { lent, tree } => extraction::verdict(lent, tree),
        Request::Resolve {
            files,
            table,
            records,
        } => resolving::verdict(files, table, records),
        Request::Detect { config, tree } => detection(*config, tree),
        Request::Encode {
            injected,
            context,
            attributes,
        } => metadata(attributes, || {
            let bytes = oracle::encode(*injected, *context, attributes)?;
            Ok(vec![bytes])
        }),
        Request::Decode { attributes } => metadata(attributes, || {
            let (injected, context) = oracle::decode(attributes)?;
            let mut bytes = vec![u8::from(injected), u8::from(context.is_some())];
            bytes.extend(context.unwrap_or(0).to_be_bytes());
            Ok(vec![bytes])
        }),
    }
}

/// The library's own verdict, where the Rust is not run: what a call with long buffers leaves.
pub fn by_itself(request: &Request) -> Verdict {
    let left = calls::make(request, &[LONGEST; 3]);
    let scope = left.scope.to_vec();
    if left.number() != 0 {
        return Verdict::refused(left.number(), left.place(), scope);
    }
    let buffers = left.buffers.iter().map(|buffer| match request {
        Request::Decode { .. } => buffer.to_vec(),
        _ => field(buffer).to_vec(),
    });
    let results = Results {
        value: left.place(),
        buffers: buffers.collect(),
        scope: scope.clone(),
    };
    let short = match request {
        Request::Extract { lent, .. } => counts::scope_of(&requested(&lent.files).0),
        _ => scope,
    };
    Verdict::accepted(results, short)
}

/// The field that a buffer begins with, as far as the buffer goes.
pub fn field(buffer: &[u8]) -> &[u8] {
    let length = match buffer {
        [_, high, low, ..] => 3 + usize::from(u16::from_be_bytes([*high, *low])),
        _ => 0,
    };
    &buffer[..length.min(buffer.len())]
}

fn detection(config: bool, tree: &[u8]) -> Verdict {
    let refused = |number, place| Verdict::refused(number, place, Vec::new());
    if tree.len() > LONGEST {
        return refused(1, 0);
    }
    let rust = || oracle::detect(config, tree);
    match read(0x01, tree) {
        Err(Fault::Deep(place)) => refused(4, place),
        Err(Fault::Broken(place)) => broken(rust(), refused(3, place)),
        Ok(_) => match rust() {
            Ok(es6) => without_scope(usize::from(es6), Vec::new()),
            Err(failure) => Verdict::conflict(format!("the Rust says {failure:?}")),
        },
    }
}

/// The verdict on a metadata call; empty bytes are no attributes.
fn metadata(attributes: &[u8], rust: impl FnOnce() -> Result<Vec<Vec<u8>>, Failure>) -> Verdict {
    let refused = |number, place| Verdict::refused(number, place, Vec::new());
    match read(0x2f, attributes) {
        Err(Fault::Broken(place) | Fault::Deep(place)) if !attributes.is_empty() => {
            broken(rust(), refused(3, place))
        }
        _ => match rust() {
            Ok(buffers) => without_scope(0, buffers),
            Err(Failure::TooLong) => refused(9, 0),
            Err(failure) => Verdict::conflict(format!("the Rust says {failure:?}")),
        },
    }
}

fn without_scope(value: usize, buffers: Vec<Vec<u8>>) -> Verdict {
    let results = Results {
        value,
        buffers,
        scope: Vec::new(),
    };
    Verdict::accepted(results, Vec::new())
}

/// The verdict on broken bytes, which the Rust's reader has to refuse too.
fn broken<T>(rust: Result<T, Failure>, refused: Verdict) -> Verdict {
    match rust {
        Err(Failure::Bad(_)) => refused,
        _ => Verdict::conflict("broken bytes, which the Rust's reader takes".to_string()),
    }
}

/// Whether the Rust's panic is the one at a string name.
fn is_string_name(text: &str) -> bool {
    text.contains("module string names unimplemented")
}
