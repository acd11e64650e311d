//! What swc_bundler 58.0.0 does, on document 01's bytes: the crate's published files, unchanged, behind calls that take
//! and give the byte forms of document 01.

mod bundler;
mod names;
mod panics;
mod prepared;
mod read;
mod write;

use swc_bundler::probe;
use swc_common::SyntaxContext;
use swc_ecma_ast::ObjectLit;
use swc_ecma_visit::tap;

use crate::{
    bundler::{bundler, scope},
    read::{Bad, Reader},
    write::TooLong,
};

pub use swc_common::Globals;

pub use crate::{
    bundler::Lent,
    panics::quiet,
    prepared::{Extraction, Resolving},
};

/// A module of a scope. Scopes list their modules in the order of the numbers.
#[derive(Clone, Debug, PartialEq, Eq)]
pub struct Module {
    pub file: u16,
    /// Bit 0 loaded, 1 stored, 2 cjs, 3 wrapping.
    pub marks: u8,
}

#[derive(Clone, Debug, PartialEq, Eq)]
pub struct Extracted {
    pub work: Vec<u8>,
    pub out: Vec<u8>,
    pub records: Vec<u8>,
    pub scope: Vec<Module>,
}

#[derive(Clone, Debug, PartialEq, Eq)]
pub struct Resolved {
    pub list: Vec<u8>,
    pub scope: Vec<Module>,
}

/// Why the crate gives no result.
#[derive(Clone, Debug, PartialEq, Eq)]
pub enum Failure {
    /// The crate panicked, at a string name or a private name, with this message.
    Panic(String),
    /// Resolving gave an error; the scope as it stands then.
    Unresolved(Vec<Module>),
    /// A field's content passes 65,535.
    TooLong,
    /// The bytes are off the grammar, or deeper than 64. This is found in no order of refusals.
    Bad(String),
}

impl From<Bad> for Failure {
    fn from(Bad(text): Bad) -> Self {
        Failure::Bad(text)
    }
}

impl From<TooLong> for Failure {
    fn from(_: TooLong) -> Self {
        Failure::TooLong
    }
}

/// `extract_import_info`: extracts what the module `tree` of the file `own` imports.
pub fn extract(
    files: &[u8],
    own: u16,
    require: bool,
    externals: &[u8],
    table: &[u8],
    tree: &[u8],
) -> Result<Extracted, Failure> {
    let lent = Lent {
        files,
        require,
        externals,
        table,
    };
    extracted(&mut Extraction::new(&Globals::new(), &lent, own, tree)?)
}

/// `resolve_imports`: makes the resolved list of `records`.
pub fn resolve(files: &[u8], table: &[u8], records: &[u8]) -> Result<Resolved, Failure> {
    let lent = Lent {
        files,
        table,
        ..Lent::default()
    };
    resolved(&mut Resolving::new(&Globals::new(), &lent, records)?)
}

/// Extracts, and resolves the records in the same scope.
pub fn both(
    files: &[u8],
    own: u16,
    require: bool,
    externals: &[u8],
    table: &[u8],
    tree: &[u8],
) -> Result<(Extracted, Resolved), Failure> {
    let lent = Lent {
        files,
        require,
        externals,
        table,
    };
    let globals = Globals::new();
    let mut extraction = Extraction::new(&globals, &lent, own, tree)?;
    let extracted = extracted(&mut extraction)?;
    let resolved = resolved(&mut Resolving::behind(extraction))?;
    Ok((extracted, resolved))
}

fn extracted(extraction: &mut Extraction) -> Result<Extracted, Failure> {
    let (ran, work) = tap::after_first(write::module, || extraction.run());
    ran?;
    Ok(Extracted {
        work: work.expect("the crate visits the module")?,
        out: write::module(&extraction.module.body)?,
        records: write::records(&extraction.raw)?,
        scope: scope(&extraction.bundler),
    })
}

fn resolved(resolving: &mut Resolving) -> Result<Resolved, Failure> {
    resolving.run()?;
    Ok(Resolved {
        list: write::resolved(&resolving.resolved)?,
        scope: scope(&resolving.bundler),
    })
}

/// `is_es6`: whether the module `tree` is an ES module.
pub fn detect(require: bool, tree: &[u8]) -> Result<bool, Failure> {
    let module = Reader::new(tree).module()?;
    let lent = Lent {
        require,
        ..Lent::default()
    };
    Ok(bundler(&Globals::new(), &lent).probe_is_es6(&module))
}

/// `ExportMetadata::encode`; empty attributes are none.
pub fn encode(injected: bool, context: Option<u32>, attributes: &[u8]) -> Result<Vec<u8>, Failure> {
    let mut with = read_attributes(attributes)?.map(Box::new);
    probe::encode(injected, context.map(SyntaxContext::from_u32), &mut with);
    let with = with.expect("encoding makes attributes");
    Ok(write::attributes(&with)?)
}

/// `ExportMetadata::decode`: injected, and the context.
pub fn decode(attributes: &[u8]) -> Result<(bool, Option<u32>), Failure> {
    let (injected, context) = probe::decode(read_attributes(attributes)?.as_ref());
    Ok((injected, context.map(SyntaxContext::as_u32)))
}

fn read_attributes(bytes: &[u8]) -> Result<Option<ObjectLit>, Failure> {
    if bytes.is_empty() {
        return Ok(None);
    }
    Ok(Some(Reader::new(bytes).attributes_alone()?))
}
