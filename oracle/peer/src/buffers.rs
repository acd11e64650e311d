//! Lent bytes, and buffers to fill.

use std::{ffi::c_int, slice};

use oracle::{Failure, Module};

/// The number of modules and 3 bytes for each of 256.
pub const SCOPE_LENGTH: usize = 2 + 3 * 256;

/// # Safety
///
/// The pointer is good for reading so many bytes, or the length is 0.
pub unsafe fn borrowed<'a>(pointer: *const u8, length: usize) -> &'a [u8] {
    match length {
        0 => &[],
        _ => slice::from_raw_parts(pointer, length),
    }
}

/// # Safety
///
/// The pointer is good for writing so many bytes, which nothing else uses, or the length is 0.
pub unsafe fn borrowed_mut<'a>(pointer: *mut u8, length: usize) -> &'a mut [u8] {
    match length {
        0 => &mut [],
        _ => slice::from_raw_parts_mut(pointer, length),
    }
}

/// As the library hands a scope back, without the zeros behind.
pub fn scope_bytes(scope: &[Module]) -> Vec<u8> {
    let modules = scope.iter().map(|module| {
        let [high, low] = module.file.to_be_bytes();
        [high, low, module.marks]
    });
    let number = (scope.len() as u16).to_be_bytes();
    number.into_iter().chain(modules.flatten()).collect()
}

/// Fills the buffers with the contents and zeros behind: 0. Without contents, or if one is too long for its buffer,
/// with zeros alone: 1.
pub fn fill<const N: usize>(
    buffers: [&mut [u8]; N],
    contents: Result<[Vec<u8>; N], Failure>,
) -> c_int {
    let fits = |contents: &[Vec<u8>; N]| {
        contents
            .iter()
            .zip(&buffers)
            .all(|(c, b)| c.len() <= b.len())
    };
    match contents.ok().filter(fits) {
        Some(contents) => {
            for (buffer, content) in buffers.into_iter().zip(contents) {
                let (head, behind) = buffer.split_at_mut(content.len());
                head.copy_from_slice(&content);
                behind.fill(0);
            }
            0
        }
        None => {
            buffers.into_iter().for_each(|buffer| buffer.fill(0));
            1
        }
    }
}
