//! Bytes as text: lowercase hex, `-` for none.

use oracle::Failure;

pub fn to_text(bytes: &[u8]) -> String {
    let digit = |value: u8| char::from(b"0123456789abcdef"[usize::from(value)]);
    match bytes {
        [] => "-".to_string(),
        _ => bytes
            .iter()
            .flat_map(|b| [digit(b >> 4), digit(b & 15)])
            .collect(),
    }
}

pub fn to_bytes(text: &str) -> Result<Vec<u8>, Failure> {
    if text == "-" {
        return Ok(Vec::new());
    }
    let digit = |b: u8| char::from(b).to_digit(16).map(|d| d as u8);
    let pairs = text.as_bytes().chunks(2).map(|pair| match *pair {
        [high, low] => Some(digit(high)? << 4 | digit(low)?),
        _ => None,
    });
    let bytes: Option<Vec<u8>> = pairs.collect();
    bytes.ok_or_else(|| Failure::Bad("a field is not hex".to_string()))
}

/// Just so many bytes.
pub fn to_array<const N: usize>(text: &str) -> Result<[u8; N], Failure> {
    let bytes = to_bytes(text)?.try_into();
    bytes.map_err(|_| Failure::Bad(format!("a field has not {N} bytes")))
}
