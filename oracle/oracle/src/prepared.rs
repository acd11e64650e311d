//! The crate's calls, with all that they need read and set up before. Each is to be run once.

use std::mem;

use swc_bundler::probe::{Raw, Resolved};
use swc_common::{FileName, Globals, Mark};
use swc_ecma_ast::Module;

use crate::{
    bundler::{bundler, scope, Lent, TableBundler},
    names::file,
    panics::caught,
    read::Reader,
    Failure,
};

/// `extract_import_info`.
pub struct Extraction<'a> {
    pub(crate) bundler: TableBundler<'a>,
    own: FileName,
    local_mark: Mark,
    pub(crate) module: Module,
    pub(crate) raw: Raw,
}

impl<'a> Extraction<'a> {
    pub fn new(globals: &'a Globals, lent: &Lent, own: u16, tree: &[u8]) -> Result<Self, Failure> {
        let module = Reader::new(tree).module()?;
        let bundler = bundler(globals, lent);
        let own = file(own);
        Ok(Extraction {
            local_mark: bundler.probe_request(&own),
            bundler,
            own,
            module,
            raw: Raw::default(),
        })
    }

    /// The crate's own call alone.
    pub fn run(&mut self) -> Result<(), Failure> {
        self.raw = caught(|| {
            self.bundler
                .probe_extract(&self.own, &mut self.module, self.local_mark)
        })?;
        Ok(())
    }
}

/// `resolve_imports`.
pub struct Resolving<'a> {
    pub(crate) bundler: TableBundler<'a>,
    raw: Raw,
    pub(crate) resolved: Resolved,
}

impl<'a> Resolving<'a> {
    pub fn new(globals: &'a Globals, lent: &Lent, records: &[u8]) -> Result<Self, Failure> {
        let raw = Reader::new(records).records()?;
        Ok(Resolving {
            bundler: bundler(globals, lent),
            raw,
            resolved: Resolved::default(),
        })
    }

    /// Resolves what an extraction gave, in the same scope.
    pub(crate) fn behind(extraction: Extraction<'a>) -> Self {
        Resolving {
            bundler: extraction.bundler,
            raw: extraction.raw,
            resolved: Resolved::default(),
        }
    }

    /// The crate's own call alone.
    pub fn run(&mut self) -> Result<(), Failure> {
        let raw = mem::take(&mut self.raw);
        self.resolved = caught(|| self.bundler.probe_resolve(&FileName::Anon, raw))?
            .map_err(|_| Failure::Unresolved(scope(&self.bundler)))?;
        Ok(())
    }
}
