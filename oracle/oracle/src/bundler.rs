//! The crate's bundler over document 01's lent lists, and its scope.

use anyhow::Error;
use rustc_hash::FxHashMap;
use swc_bundler::{Bundler, Config, Hook, Load, ModuleData, Resolution, Resolve};
use swc_common::{sync::Lrc, FileName, Globals, SourceMap};

use crate::{
    names::{atom, atom_number, file, file_number},
    Module,
};

/// The table as the bundler's resolver: sources with their files.
pub struct Table(FxHashMap<u16, u16>);

impl Table {
    /// A source named twice counts first.
    fn new(table: &[u8]) -> Self {
        let mut files = FxHashMap::default();
        for row in table.chunks_exact(4) {
            let source = u16::from_be_bytes([row[0], row[1]]);
            let file = u16::from_be_bytes([row[2], row[3]]);
            files.entry(source).or_insert(file);
        }
        Table(files)
    }
}

impl Resolve for Table {
    fn resolve(&self, _: &FileName, module_specifier: &str) -> Result<Resolution, Error> {
        match self.0.get(&atom_number(module_specifier)) {
            Some(number) => Ok(Resolution {
                filename: file(*number),
            }),
            None => Err(Error::msg("not in the table")),
        }
    }
}

pub struct NoLoader;

impl Load for NoLoader {
    fn load(&self, _: &FileName) -> Result<ModuleData, Error> {
        unimplemented!("the oracle loads nothing")
    }
}

struct NoHook;

impl Hook for NoHook {}

pub type TableBundler<'a> = Bundler<'a, NoLoader, Table>;

/// What a bundler is set up with.
#[derive(Default)]
pub struct Lent<'a> {
    pub files: &'a [u8],
    pub require: bool,
    pub externals: &'a [u8],
    pub table: &'a [u8],
}

/// A bundler with a fresh scope in which the lent files are requested.
pub fn bundler<'a>(globals: &'a Globals, lent: &Lent) -> TableBundler<'a> {
    let config = Config {
        require: lent.require,
        external_modules: numbers(lent.externals).map(atom).collect(),
        ..Default::default()
    };
    let table = Table::new(lent.table);
    let bundler = Bundler::new(
        globals,
        Lrc::new(SourceMap),
        NoLoader,
        table,
        config,
        Box::new(NoHook),
    );
    // The bundler took marks for itself; modules begin at document 01's 2.
    globals.number_marks_from(2);
    for number in numbers(lent.files) {
        bundler.probe_request(&file(number));
    }
    bundler
}

/// Two-byte numbers; an odd last byte is unread.
fn numbers(bytes: &[u8]) -> impl Iterator<Item = u16> + '_ {
    bytes
        .chunks_exact(2)
        .map(|pair| u16::from_be_bytes([pair[0], pair[1]]))
}

pub fn scope(bundler: &TableBundler) -> Vec<Module> {
    let modules = bundler.probe_marks().into_iter().map(|m| {
        let [loaded, stored, cjs, wrapping] = [m.loaded, m.stored, m.cjs, m.wrapping].map(u8::from);
        Module {
            file: file_number(&m.file),
            marks: loaded | stored << 1 | cjs << 2 | wrapping << 3,
        }
    });
    modules.collect()
}
