//! The description of a difference, and how bytes are shown in it.

use std::fmt::Write;

/// A difference between two libraries, described so that it can be found again.
#[derive(Debug)]
pub struct Difference(pub String);

/// Bytes in hex.
pub fn hex(bytes: &[u8]) -> String {
    bytes.iter().fold(String::new(), |mut text, byte| {
        let _ = write!(text, "{byte:02x}");
        text
    })
}

/// Where two runs of bytes differ first, in words; nothing if they are the same.
pub fn first_difference(left: &[u8], right: &[u8]) -> Option<String> {
    if left == right {
        return None;
    }
    if left.len() != right.len() {
        return Some(format!("lengths {} and {}", left.len(), right.len()));
    }
    let at = left.iter().zip(right).position(|(a, b)| a != b)?;
    Some(format!("byte {at}: {:02x} and {:02x}", left[at], right[at]))
}
