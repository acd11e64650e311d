//! Import extraction.

use crate::calls::{self, bytes_of};
use crate::field::written;
use crate::refusal::accepted;
use crate::{Atom, FileName, Modes, Refusal, Row, Scope, REPORT_SIZE};

/// What is lent to an extraction: what the module `tree` of the file `file` imports.
#[derive(Clone, Copy, Debug, Default, PartialEq, Eq)]
pub struct Extraction<'a> {
    /// Files that get their numbers first, in this order: those of a scope to go on with.
    pub files: &'a [FileName],
    /// The module's own file.
    pub file: FileName,
    /// What the caller chooses.
    pub modes: Modes,
    /// Sources that are external, at most 512.
    pub externals: &'a [Atom],
    /// Sources with the files to which they resolve, each source once, at most 1,024 rows.
    pub table: &'a [Row],
    /// The module, a 01 field.
    pub tree: &'a [u8],
}

/// What an accepted extraction wrote, each a whole field: `&[u8]` in lent buffers, or `Vec<u8>`.
#[derive(Clone, Copy, Debug, PartialEq, Eq)]
pub struct Extracted<B> {
    /// The tree after the first pass.
    pub work: B,
    /// The tree after the second pass.
    pub out: B,
    /// The records, a 02 field: what [`Resolving`](crate::Resolving) takes.
    pub records: B,
}

impl Extraction<'_> {
    /// Extracts into lent buffers, which have zeros behind the fields; refused, they are all zero.
    /// `scope` becomes the scope at the call's end, which a refusal leaves as `files` made it.
    pub fn extract<'b>(
        &self,
        scope: &mut Scope,
        work: &'b mut [u8],
        out: &'b mut [u8],
        records: &'b mut [u8],
    ) -> Result<Extracted<&'b [u8]>, Refusal> {
        let answer = calls::extract(
            bytes_of(self.files),
            self.file.get(),
            self.modes.bits(),
            bytes_of(self.externals),
            bytes_of(self.table),
            self.tree,
            &mut scope.0,
            &mut [0; REPORT_SIZE],
            work,
            out,
            records,
        );
        accepted(answer).map(|_| Extracted {
            work: written(work),
            out: written(out),
            records: written(records),
        })
    }
}
