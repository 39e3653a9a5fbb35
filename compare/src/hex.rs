//! Bytes as hexadecimal text and back.

use std::fmt;

/// Two digits a byte, without spaces.
pub fn hex(bytes: &[u8]) -> String {
    bytes.iter().map(|byte| format!("{byte:02x}")).collect()
}

/// Cells as text, with runs of equal ones as `cell*times`.
pub fn runs<T: PartialEq + fmt::LowerHex>(cells: &[T]) -> String {
    let width = 2 * size_of::<T>();
    let run = |run: &[T]| match run {
        [cell] => format!("{cell:0width$x}"),
        _ => format!("{:0width$x}*{}", run[0], run.len()),
    };
    let parts: Vec<String> = cells.chunk_by(|left, right| left == right).map(run).collect();
    parts.join(" ")
}

/// The bytes of digits in pairs; spaces, commas and bars between pairs are passed over.
pub fn bytes(text: &str) -> Vec<u8> {
    let digits: Vec<u8> = text
        .chars()
        .filter(|sign| !" ,|".contains(*sign))
        .map(|sign| sign.to_digit(16).expect("a hexadecimal digit") as u8)
        .collect();
    digits.chunks(2).map(|pair| pair[0] * 16 + pair[1]).collect()
}
