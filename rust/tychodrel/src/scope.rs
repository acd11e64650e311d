//! The scope that a call ends with.

use core::fmt;
use core::ops::Deref;

use crate::{FileName, ModuleId, MAX_FILES, SCOPE_SIZE};

/// The scope that a call ended with: its modules in the order of their numbers, with their marks.
///
/// Every call starts a scope of its own and overwrites the one that is lent. To go on with a
/// scope, lend its [`files`](Scope::files) to the next call; marks are not carried over.
#[derive(Clone, PartialEq, Eq)]
pub struct Scope(pub(crate) [u8; SCOPE_SIZE]);

/// A module of a scope, with its marks.
#[derive(Clone, Copy, Debug, PartialEq, Eq, Hash)]
pub struct Module {
    /// Its number.
    pub id: ModuleId,
    /// Its file.
    pub file: FileName,
    /// Whether it is loaded.
    pub loaded: bool,
    /// Whether it is stored.
    pub stored: bool,
    /// Whether it is a CommonJS module: a call of `require` names it.
    pub cjs: bool,
    /// Whether it is wrapped: its namespace is kept whole.
    pub wrapping: bool,
}

impl Scope {
    /// A scope without modules.
    pub const fn new() -> Self {
        Self([0; SCOPE_SIZE])
    }

    /// The number of modules, at most 256.
    pub fn len(&self) -> usize {
        let [high, low, ..] = self.0;
        usize::from(u16::from_be_bytes([high, low]))
    }

    /// Whether there is no module.
    pub fn is_empty(&self) -> bool {
        self.len() == 0
    }

    /// The modules in the order of their numbers.
    pub fn modules(&self) -> impl Iterator<Item = Module> + '_ {
        let [_, _, entries @ ..] = &self.0;
        let (entries, _) = entries.as_chunks();
        let numbered = (0..).zip(entries).take(self.len());
        numbered.map(|(id, &[high, low, marks])| Module {
            id: ModuleId::new(id),
            file: FileName::new(u16::from_be_bytes([high, low])),
            loaded: marks & 1 != 0,
            stored: marks & 2 != 0,
            cjs: marks & 4 != 0,
            wrapping: marks & 8 != 0,
        })
    }

    /// The number of a file's module.
    pub fn module_id(&self, file: FileName) -> Option<ModuleId> {
        self.modules()
            .find(|module| module.file == file)
            .map(|module| module.id)
    }

    /// The files in the order of their modules' numbers, to be lent to the next call: there they
    /// get the same numbers.
    pub fn files(&self) -> Files {
        let mut files = [FileName::default(); MAX_FILES];
        for (file, module) in files.iter_mut().zip(self.modules()) {
            *file = module.file;
        }
        Files {
            files,
            len: self.len(),
        }
    }

    /// The scope as bytes: the number of modules (2 bytes), then for each its file (2 bytes) and
    /// its marks (1 byte: 1 loaded, 2 stored, 4 cjs, 8 wrapping), zeros behind.
    pub const fn as_bytes(&self) -> &[u8; SCOPE_SIZE] {
        &self.0
    }
}

impl Default for Scope {
    fn default() -> Self {
        Self::new()
    }
}

impl fmt::Debug for Scope {
    fn fmt(&self, f: &mut fmt::Formatter<'_>) -> fmt::Result {
        f.debug_list().entries(self.modules()).finish()
    }
}

/// The files of a scope, a slice of [`FileName`] without a heap.
#[derive(Clone)]
pub struct Files {
    files: [FileName; MAX_FILES],
    len: usize,
}

impl Deref for Files {
    type Target = [FileName];

    fn deref(&self) -> &[FileName] {
        self.files.get(..self.len).unwrap_or(&self.files)
    }
}

impl fmt::Debug for Files {
    fn fmt(&self, f: &mut fmt::Formatter<'_>) -> fmt::Result {
        (**self).fmt(f)
    }
}
