//! The archive's calls over byte slices, for hosts that keep their lists as bytes. An answer is
//! the refusal's number × 2^32 + its place; a zero upper half is acceptance.
//!
//! All unsafe code of the crate stands in this file. A call stays within the lengths of its
//! buffers, and asks only that they are there and that none which it writes overlaps another
//! (`include/tychodrel.h`). Borrows give just that.

use core::slice;

use crate::{Atom, FileName, Row};

extern "C" {
    fn tychodrel_detect(modes: u32, tree: *const u8, tree_len: usize) -> u64;

    fn tychodrel_encode_metadata(
        injected: bool,
        has_context: bool,
        context: u32,
        attributes: *const u8,
        attributes_len: usize,
        out: *mut u8,
        out_len: usize,
    ) -> u64;

    fn tychodrel_decode_metadata(
        attributes: *const u8,
        attributes_len: usize,
        metadata: *mut [u8; 6],
    ) -> u64;

    fn tychodrel_extract(
        files: *const u8,
        files_len: usize,
        file: u16,
        modes: u32,
        externals: *const u8,
        externals_len: usize,
        table: *const u8,
        table_len: usize,
        tree: *const u8,
        tree_len: usize,
        scope: *mut [u8; 770],
        report: *mut [u8; 32],
        work: *mut u8,
        work_len: usize,
        out: *mut u8,
        out_len: usize,
        records: *mut u8,
        records_len: usize,
    ) -> u64;

    fn tychodrel_resolve(
        files: *const u8,
        files_len: usize,
        modes: u32,
        table: *const u8,
        table_len: usize,
        records: *const u8,
        records_len: usize,
        scope: *mut [u8; 770],
        report: *mut [u8; 32],
        list: *mut u8,
        list_len: usize,
    ) -> u64;
}

/// Whether a module is an ES module: 1 or 0 in the answer's lower half. `modes` are bits
/// ([`Modes::bits`](crate::Modes::bits)).
pub fn detect(modes: u32, tree: &[u8]) -> u64 {
    // SAFETY: pointer and length are a live slice's.
    unsafe { tychodrel_detect(modes, tree.as_ptr(), tree.len()) }
}

/// Adds metadata to lent attributes, a 2F field or empty bytes for none. `out` then holds a 2F
/// field, with zeros behind; refused, it is all zero.
pub fn encode_metadata(
    injected: bool,
    context: Option<u32>,
    attributes: &[u8],
    out: &mut [u8],
) -> u64 {
    // SAFETY: pointers and lengths are live slices'; the one that is written is borrowed uniquely.
    unsafe {
        tychodrel_encode_metadata(
            injected,
            context.is_some(),
            context.unwrap_or(0),
            attributes.as_ptr(),
            attributes.len(),
            out.as_mut_ptr(),
            out.len(),
        )
    }
}

/// Reads the metadata in lent attributes: `metadata` then holds injected (0 or 1), whether there is
/// a context (0 or 1), and the context, big-endian; refused, it is all zero.
pub fn decode_metadata(attributes: &[u8], metadata: &mut [u8; 6]) -> u64 {
    // SAFETY: pointer and length are a live slice's; what is written is borrowed uniquely.
    unsafe { tychodrel_decode_metadata(attributes.as_ptr(), attributes.len(), metadata) }
}

/// Extracts what the module `tree` of the file `file` imports, in a fresh scope in which `files`
/// are requested first. `work`, `out` and `records` then hold a field each, with zeros behind;
/// refused, they are all zero. `scope` holds the scope at the call's end, `report` zeros.
#[expect(
    clippy::too_many_arguments,
    reason = "the parameters are those of the exported call"
)]
pub fn extract(
    files: &[u8],
    file: u16,
    modes: u32,
    externals: &[u8],
    table: &[u8],
    tree: &[u8],
    scope: &mut [u8; 770],
    report: &mut [u8; 32],
    work: &mut [u8],
    out: &mut [u8],
    records: &mut [u8],
) -> u64 {
    // SAFETY: pointers and lengths are live slices'; those that are written are borrowed uniquely.
    unsafe {
        tychodrel_extract(
            files.as_ptr(),
            files.len(),
            file,
            modes,
            externals.as_ptr(),
            externals.len(),
            table.as_ptr(),
            table.len(),
            tree.as_ptr(),
            tree.len(),
            scope,
            report,
            work.as_mut_ptr(),
            work.len(),
            out.as_mut_ptr(),
            out.len(),
            records.as_mut_ptr(),
            records.len(),
        )
    }
}

/// Resolves `records` by `table`, in a fresh scope in which `files` are requested first. `list`
/// then holds a 03 field, with zeros behind; refused, it is all zero. `scope` holds the scope at
/// the call's end, `report` zeros.
pub fn resolve(
    files: &[u8],
    modes: u32,
    table: &[u8],
    records: &[u8],
    scope: &mut [u8; 770],
    report: &mut [u8; 32],
    list: &mut [u8],
) -> u64 {
    // SAFETY: pointers and lengths are live slices'; those that are written are borrowed uniquely.
    unsafe {
        tychodrel_resolve(
            files.as_ptr(),
            files.len(),
            modes,
            table.as_ptr(),
            table.len(),
            records.as_ptr(),
            records.len(),
            scope,
            report,
            list.as_mut_ptr(),
            list.len(),
        )
    }
}

/// An entry of a lent list.
///
/// # Safety
///
/// The type is initialised bytes alone, without padding, in the order in which the calls read them.
pub(crate) unsafe trait Entry {}

// SAFETY: two bytes, by `repr(transparent)`.
unsafe impl Entry for Atom {}
// SAFETY: two bytes, by `repr(transparent)`.
unsafe impl Entry for FileName {}
// SAFETY: the source's two bytes, then the file's, by `repr(C)`; neither has an alignment over 1.
unsafe impl Entry for Row {}

const _: () = assert!(size_of::<Atom>() == 2 && align_of::<Atom>() == 1);
const _: () = assert!(size_of::<FileName>() == 2 && align_of::<FileName>() == 1);
const _: () = assert!(size_of::<Row>() == 4 && align_of::<Row>() == 1);

/// The bytes of a list, as the calls read them.
pub(crate) fn bytes_of<T: Entry>(list: &[T]) -> &[u8] {
    // SAFETY: all bytes of an entry are initialised; they are borrowed as long as the list is.
    unsafe { slice::from_raw_parts(list.as_ptr().cast(), size_of_val(list)) }
}
