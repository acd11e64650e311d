//! Attributes (2F): keys and values of all forms that metadata may meet.

use crate::{
    field::{attributes, Field},
    rng::Rng,
};

const INJECTED: &[u8] = b"__swc_bundler__injected__";
const EXPORT_CTXT: &[u8] = b"__swc_bundler__export_ctxt__";

/// The two keys, keys that are nearly one of them, and others.
const KEYS: [&[u8]; 10] = [
    INJECTED,
    EXPORT_CTXT,
    b"__swc_bundler__injected__x",
    b"__swc_bundler__export_ctxt_",
    b"__SWC_BUNDLER__EXPORT_CTXT__",
    b"__swc_bundler__export_ctxt\xff_",
    b"type",
    b"1",
    b"",
    &[b'k'; 255],
];

/// Contexts that are read, and values that are none.
const VALUES: [&[u8]; 22] = [
    b"1",
    b"0",
    b"7",
    b"+7",
    b"+1",
    b"01",
    b"000000000000000000007",
    b"4294967295",
    b"+4294967295",
    b"4294967296",
    b"99999999999999999999",
    b"18446744073709551617",
    b"",
    b"+",
    b"-",
    b"-0",
    b"++7",
    b"7+",
    b" 7",
    b"7\x00",
    b"json",
    b"\xd9\xa1",
];

/// A 2F with a few attributes.
pub fn any(rng: &mut Rng) -> Field {
    let count = rng.below(6);
    attributes((0..count).map(|_| one(rng)).collect())
}

fn one(rng: &mut Rng) -> Field {
    Field::new(0x30, content(rng), Vec::new())
}

/// The content of a 30.
pub fn content(rng: &mut Rng) -> Vec<u8> {
    let key = match rng.below(4) {
        0 => rng.pick(&KEYS),
        1 => INJECTED,
        _ => EXPORT_CTXT,
    };
    let value = match rng.below(4) {
        0 => b"1",
        _ => rng.pick(&VALUES),
    };
    let kind = |rng: &mut Rng| u8::from(!rng.one_in(8));
    let front = [kind(rng), kind(rng), key.len() as u8];
    [&front, key, value].concat()
}
