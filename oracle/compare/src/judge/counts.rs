//! What is counted by document 01 alone, for extraction and for resolving.

use std::collections::BTreeSet;

use oracle::Module;

/// How many files a scope has room for.
pub const MOST_FILES: usize = 256;

/// The number of the refusal for a table: its length, or a source that is named twice.
pub fn fault_of_table(table: &[u8]) -> Option<u64> {
    if table.len() > 4_096 || !table.len().is_multiple_of(4) {
        return Some(1);
    }
    let mut sources = BTreeSet::new();
    let mut rows = table.chunks(4);
    let twice = rows.any(|row| !sources.insert([row[0], row[1]]));
    twice.then_some(2)
}

/// The file to which a source resolves.
pub fn file_of(table: &[u8], source: u16) -> Option<u16> {
    let mut rows = table.chunks_exact(4);
    let row = rows.find(|row| row[..2] == source.to_be_bytes())?;
    Some(u16::from_be_bytes([row[2], row[3]]))
}

/// The bytes of a scope that has these files, without marks.
pub fn scope_of(files: &[u16]) -> Vec<u8> {
    let module = |file: &u16| Module {
        file: *file,
        marks: 0,
    };
    scope_bytes(&files.iter().map(module).collect::<Vec<_>>())
}

/// The number of modules, then file and marks of each, then zeros.
pub fn scope_bytes(modules: &[Module]) -> Vec<u8> {
    let mut bytes = (modules.len() as u16).to_be_bytes().to_vec();
    for module in modules {
        bytes.extend(module.file.to_be_bytes());
        bytes.push(module.marks);
    }
    bytes.resize(770, 0);
    bytes
}
