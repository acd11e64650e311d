//! Fields of the byte form.

/// The first field of some bytes, without what stands behind it: 3 bytes and as many as the second
/// and the third say. `None` where the bytes end before the field does.
///
/// ```
/// assert_eq!(tychodrel::field(&[2, 0, 1, 9, 0, 0]), Some(&[2, 0, 1, 9][..]));
/// assert_eq!(tychodrel::field(&[2, 0, 1]), None);
/// ```
pub fn field(bytes: &[u8]) -> Option<&[u8]> {
    let [_, high, low, ..] = *bytes else {
        return None;
    };
    bytes.get(..3 + usize::from(u16::from_be_bytes([high, low])))
}

/// The field that an accepted call left in a buffer, which is a whole one.
pub(crate) fn written(buffer: &[u8]) -> &[u8] {
    field(buffer).unwrap_or_default()
}
