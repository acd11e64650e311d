//! Import resolving.

use crate::calls::{self, bytes_of};
use crate::field::written;
use crate::refusal::accepted;
use crate::{FileName, Modes, Refusal, Row, Scope, REPORT_SIZE};

/// What is lent to a resolving: for each record, which module its source is.
#[derive(Clone, Copy, Debug, Default, PartialEq, Eq)]
pub struct Resolving<'a> {
    /// Files that get their numbers first: those of the extraction's scope ([`Scope::files`]), so
    /// that the contexts in the list are those in the records.
    pub files: &'a [FileName],
    /// The extraction's modes. No rule of resolving asks them yet.
    pub modes: Modes,
    /// The extraction's table.
    pub table: &'a [Row],
    /// The records, a 02 field without the zeros behind it.
    pub records: &'a [u8],
}

impl Resolving<'_> {
    /// Resolves into a lent buffer and gives the 03 field in it. Behind it `list` has zeros;
    /// refused, it is all zero. `scope` becomes the scope at the call's end: after a refusal
    /// [`UNRESOLVED`](Refusal::UNRESOLVED), [`STRING_NAME`](Refusal::STRING_NAME) or
    /// [`NO_ROOM`](Refusal::NO_ROOM) it keeps the new numbers, after any other it is as `files`
    /// made it.
    pub fn resolve<'b>(&self, scope: &mut Scope, list: &'b mut [u8]) -> Result<&'b [u8], Refusal> {
        let (files, table) = (bytes_of(self.files), bytes_of(self.table));
        let answer = calls::resolve(
            files,
            self.modes.bits(),
            table,
            self.records,
            &mut scope.0,
            &mut [0; REPORT_SIZE],
            list,
        );
        accepted(answer).map(|_| written(list))
    }
}
