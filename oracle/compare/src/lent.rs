//! What extraction is lent beside its tree: files, own file, config, externals, table.

use crate::{field::list_bytes, rng::Rng};

/// The sources of generated trees. One is named require, and one like an id.
pub const SOURCES: [u16; 5] = [0x14, 0x1e, 0x1f, 0, 0x15];

const FILES: [u16; 5] = [9, 10, 11, 12, 0];

pub struct Lent {
    pub files: Vec<u8>,
    pub own: u16,
    pub config: bool,
    pub externals: Vec<u8>,
    pub table: Vec<u8>,
}

impl Lent {
    /// Nothing but the own file 9, and a table with these rows.
    pub fn plain(config: bool, rows: &[u16]) -> Self {
        Lent {
            files: Vec::new(),
            own: 9,
            config,
            externals: Vec::new(),
            table: list_bytes(rows),
        }
    }

    /// Lists of all forms.
    pub fn any(rng: &mut Rng) -> Self {
        Lent {
            files: files(rng),
            own: if rng.one_in(4) { rng.pick(&FILES) } else { 9 },
            config: !rng.one_in(4),
            externals: externals(rng),
            table: table(rng),
        }
    }

    /// The contexts of the own file's module: local and export.
    pub fn own_contexts(&self) -> (u32, u32) {
        let (modules, _) = requested(&self.files);
        let number = modules.iter().position(|file| *file == self.own);
        let number = number.unwrap_or(modules.len()) as u32;
        (2 + 2 * number, 3 + 2 * number)
    }
}

/// The files that get a number when a list is requested, in order, and whether one more was refused.
pub fn requested(files: &[u8]) -> (Vec<u16>, bool) {
    let mut modules = Vec::new();
    for file in numbers(files) {
        if modules.contains(&file) {
            continue;
        }
        if modules.len() == 256 {
            return (modules, true);
        }
        modules.push(file);
    }
    (modules, false)
}

/// A list of 2-byte numbers; an odd last byte is not read.
pub fn numbers(bytes: &[u8]) -> impl Iterator<Item = u16> + '_ {
    let pairs = bytes.chunks_exact(2);
    pairs.map(|pair| u16::from_be_bytes([pair[0], pair[1]]))
}

pub fn files(rng: &mut Rng) -> Vec<u8> {
    if rng.one_in(2) {
        return Vec::new();
    }
    let count = rng.below(5);
    let list: Vec<u16> = (0..count).map(|_| rng.pick(&FILES)).collect();
    let mut bytes = list_bytes(&list);
    if rng.one_in(8) {
        bytes.push(rng.byte());
    }
    bytes
}

fn externals(rng: &mut Rng) -> Vec<u8> {
    if !rng.one_in(3) {
        return Vec::new();
    }
    let count = rng.below(3);
    let list: Vec<u16> = (0..count).map(|_| rng.pick(&SOURCES)).collect();
    let mut bytes = list_bytes(&list);
    if rng.one_in(30) {
        bytes.push(0);
    }
    bytes
}

pub fn table(rng: &mut Rng) -> Vec<u8> {
    let mut rows = Vec::new();
    for source in SOURCES {
        if !rng.one_in(5) {
            rows.extend([source, rng.pick(&FILES)]);
        }
    }
    if rng.one_in(60) {
        rows.extend([rng.pick(&SOURCES), rng.pick(&FILES)]);
    }
    let mut bytes = list_bytes(&rows);
    if rng.one_in(80) {
        bytes.truncate(bytes.len().saturating_sub(1 + rng.below(3)));
    }
    bytes
}
