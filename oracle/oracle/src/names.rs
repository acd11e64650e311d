//! Numbers of document 01 and the names that stand for them in swc's types.

use std::path::PathBuf;

use swc_atoms::Atom;
use swc_common::FileName;

const FIXED: [&str; 5] = ["require", "module", "exports", "default", "mod"];

pub fn atom(number: u16) -> Atom {
    match FIXED.get(usize::from(number)) {
        Some(name) => (*name).into(),
        None => format!("a{number}").as_str().into(),
    }
}

pub fn atom_number(name: &str) -> u16 {
    match FIXED.iter().position(|fixed| *fixed == name) {
        Some(number) => number as u16,
        None => name[1..].parse().expect("an atom that no number gave"),
    }
}

pub fn file(number: u16) -> FileName {
    FileName::Real(PathBuf::from(number.to_string()))
}

pub fn file_number(file: &FileName) -> u16 {
    file.to_string()
        .parse()
        .expect("a file that no number gave")
}

/// Free bytes as text: byte b is the character b.
pub fn bytes_to_text(bytes: &[u8]) -> String {
    bytes.iter().map(|b| *b as char).collect()
}

pub fn text_to_bytes(text: &str) -> Vec<u8> {
    text.chars().map(|c| c as u8).collect()
}
