//! What JavaScript modules import, over a byte form of the syntax tree: a safe interface to the
//! proved static library of Tychodrel. Tags, fields and rules are those of document 01.
//!
//! A host lends bytes and typed lists and gets a [`Result`] back. No call panics, none keeps
//! anything, and a [`Refusal`] says in words what was found, where, and what to do. Without the
//! feature `alloc` no heap is used.
//!
//! Card 2 of document 01 is `import * as a from './m'; a.x;` in file 9; `./m` is atom 20 and
//! resolves to file 10. The module is extracted, then its records are resolved with the files of
//! the scope:
//!
//! ```
//! use tychodrel::{Atom, Extraction, FileName, ModuleId, Resolving, Row, Scope};
//!
//! let tree = [
//!     0x01, 0, 38, // module
//!     0x10, 0, 15, 0, 20, 0, 0, 0, 1, 0x22, 0, 6, 0, 21, 0, 0, 0, 2, // import
//!     0x44, 0, 17, 0x63, 0, 14, 0x60, 0, 6, 0, 21, 0, 0, 0, 2, 0x70, 0, 2, 0, 22, // a.x;
//! ];
//! let table = [Row {
//!     source: Atom::new(20),
//!     file: FileName::new(10),
//! }];
//! let mut scope = Scope::new();
//! let (mut work, mut out, mut records) = ([0; 128], [0; 128], [0; 128]);
//!
//! let extraction = Extraction {
//!     file: FileName::new(9),
//!     table: &table,
//!     tree: &tree,
//!     ..Extraction::default()
//! };
//! let extracted = extraction.extract(&mut scope, &mut work, &mut out, &mut records)?;
//! assert_eq!(scope.module_id(FileName::new(10)), Some(ModuleId::new(1)));
//! assert_eq!(ModuleId::new(1).export_ctxt().get(), 5);
//! // One collected record: './m', with x in that context.
//! let x = [0x20, 0, 7, 0, 22, 0, 0, 0, 5, 0];
//! assert_eq!(extracted.records[..6], [0x02, 0, 19, 0x80, 0, 16]);
//! assert_eq!(extracted.records[12..], x);
//!
//! let mut list = [0; 64];
//! let resolving = Resolving {
//!     files: &scope.files(),
//!     table: &table,
//!     records: extracted.records,
//!     ..Resolving::default()
//! };
//! let resolved = resolving.resolve(&mut scope, &mut list)?;
//! // A collected record of module 1, file 10.
//! assert_eq!(resolved[..11], [0x03, 0, 32, 0x90, 0, 29, 3, 0, 1, 0, 10]);
//! # Ok::<(), tychodrel::Refusal>(())
//! ```
//!
//! The archive needs `memcpy` and `memset`: the host's C library has them, or `compiler_builtins`
//! where there is none.

#![no_std]
#![deny(missing_docs, unsafe_code)]

#[cfg(feature = "alloc")]
extern crate alloc;

#[allow(unsafe_code)]
pub mod calls;
mod detection;
mod extraction;
mod field;
mod id;
mod metadata;
mod modes;
mod refusal;
mod refusals;
mod resolving;
mod scope;
#[cfg(feature = "alloc")]
mod to_vec;

pub use detection::is_es6;
pub use extraction::{Extracted, Extraction};
pub use field::field;
pub use id::{Atom, FileName, ModuleId, Row, SyntaxContext};
pub use metadata::Metadata;
pub use modes::Modes;
pub use refusal::Refusal;
pub use resolving::Resolving;
pub use scope::{Files, Module, Scope};

/// Bytes of a scope: the number of modules in 2 bytes, then 3 bytes for each.
pub const SCOPE_SIZE: usize = 770;

/// Bytes of a report: what a call counts. No call counts anything yet, and all are zero.
pub const REPORT_SIZE: usize = 32;

/// Files in one scope.
pub const MAX_FILES: usize = 256;

/// Bytes of a tree in extraction.
pub const MAX_TREE_LEN: usize = 32_768;

/// Bytes of a tree in detection.
pub const MAX_DETECTED_TREE_LEN: usize = 65_538;

/// Bytes of the externals: 512 atoms.
pub const MAX_EXTERNALS_LEN: usize = 1_024;

/// Bytes of the table: 1,024 rows.
pub const MAX_TABLE_LEN: usize = 4_096;

/// Bytes of a field: 3 and the longest content. No buffer needs more room.
pub const MAX_FIELD_LEN: usize = 65_538;
