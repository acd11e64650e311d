//! The crate's own files behind the C calls that `bench/peer.h` declares, for the benchmark.

mod buffers;
mod prepared;

use std::ffi::c_int;

use oracle::Lent;

use crate::{
    buffers::{borrowed, borrowed_mut, fill, scope_bytes, SCOPE_LENGTH},
    prepared::Peer,
};

/// # Safety
///
/// Each pointer is good for its length, `scope` for 770 bytes; what is written overlaps nothing else.
#[no_mangle]
#[allow(clippy::too_many_arguments)]
pub unsafe extern "C" fn peer_extract(
    files: *const u8,
    files_len: usize,
    file: u16,
    config: bool,
    externals: *const u8,
    externals_len: usize,
    table: *const u8,
    table_len: usize,
    tree: *const u8,
    tree_len: usize,
    scope: *mut u8,
    work: *mut u8,
    work_len: usize,
    out: *mut u8,
    out_len: usize,
    records: *mut u8,
    records_len: usize,
) -> c_int {
    let files = borrowed(files, files_len);
    let externals = borrowed(externals, externals_len);
    let (table, tree) = (borrowed(table, table_len), borrowed(tree, tree_len));
    let buffers = [
        borrowed_mut(scope, SCOPE_LENGTH),
        borrowed_mut(work, work_len),
        borrowed_mut(out, out_len),
        borrowed_mut(records, records_len),
    ];
    oracle::quiet();
    let extracted = oracle::extract(files, file, config, externals, table, tree);
    fill(
        buffers,
        extracted.map(|e| [scope_bytes(&e.scope), e.work, e.out, e.records]),
    )
}

/// # Safety
///
/// As [peer_extract].
#[no_mangle]
#[allow(clippy::too_many_arguments)]
pub unsafe extern "C" fn peer_resolve(
    files: *const u8,
    files_len: usize,
    table: *const u8,
    table_len: usize,
    records: *const u8,
    records_len: usize,
    scope: *mut u8,
    list: *mut u8,
    list_len: usize,
) -> c_int {
    let (files, table) = (borrowed(files, files_len), borrowed(table, table_len));
    let records = borrowed(records, records_len);
    let buffers = [
        borrowed_mut(scope, SCOPE_LENGTH),
        borrowed_mut(list, list_len),
    ];
    oracle::quiet();
    let resolved = oracle::resolve(files, table, records);
    fill(buffers, resolved.map(|r| [scope_bytes(&r.scope), r.list]))
}

/// # Safety
///
/// Each pointer is good for its length.
#[no_mangle]
#[allow(clippy::too_many_arguments)]
pub unsafe extern "C" fn peer_prepare_extract(
    files: *const u8,
    files_len: usize,
    file: u16,
    config: bool,
    externals: *const u8,
    externals_len: usize,
    table: *const u8,
    table_len: usize,
    tree: *const u8,
    tree_len: usize,
) -> Option<Box<Peer>> {
    let lent = Lent {
        files: borrowed(files, files_len),
        require: config,
        externals: borrowed(externals, externals_len),
        table: borrowed(table, table_len),
    };
    Peer::extract(&lent, file, borrowed(tree, tree_len)).map(Box::new)
}

/// # Safety
///
/// Each pointer is good for its length.
#[no_mangle]
pub unsafe extern "C" fn peer_prepare_resolve(
    files: *const u8,
    files_len: usize,
    table: *const u8,
    table_len: usize,
    records: *const u8,
    records_len: usize,
) -> Option<Box<Peer>> {
    let lent = Lent {
        files: borrowed(files, files_len),
        table: borrowed(table, table_len),
        ..Lent::default()
    };
    Peer::resolve(&lent, borrowed(records, records_len)).map(Box::new)
}

/// A symbol of its own, so that what runs in it can be counted.
#[no_mangle]
#[inline(never)]
pub extern "C" fn peer_run(peer: &mut Peer) -> c_int {
    peer.run().is_err().into()
}

#[no_mangle]
pub extern "C" fn peer_free(_: Option<Box<Peer>>) {}
