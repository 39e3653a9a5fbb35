//! The fields of a row.

use crate::reference::head::LONGEST_FORM;
use crate::reference::tally::{COUNTS, Tally, ZERO};
use std::str::Split;

/// The longest slices of bytes and of numbers that program `examples` lends, whatever is asked.
const MOST_BYTES: u64 = LONGEST_FORM as u64;
const MOST_NUMBERS: u64 = 4096;

/// No byte string of a row is longer.
const LONGEST: usize = 32_768;

/// The fields that are left.
pub struct Fields<'a> {
    left: Split<'a, char>,
}

impl<'a> Fields<'a> {
    pub fn of(text: &'a str) -> Fields<'a> {
        Fields { left: text.split(' ') }
    }

    pub fn word(&mut self) -> Option<&'a str> {
        self.left.next()
    }

    pub fn bytes(&mut self) -> Option<Vec<u8>> {
        match self.word()? {
            "-" => Some(Vec::new()),
            text => pieces(text.split('+')),
        }
    }

    pub fn number(&mut self) -> Option<u64> {
        decimal(self.word()?)
    }

    /// The number of a rule, which has two bytes.
    pub fn rule(&mut self) -> Option<usize> {
        Some(self.number()?.min(0xFFFF) as usize)
    }

    /// The length of a slice of bytes.
    pub fn room(&mut self) -> Option<usize> {
        Some(self.number()?.min(MOST_BYTES) as usize)
    }

    /// The length of a slice of numbers.
    pub fn numbers(&mut self) -> Option<usize> {
        Some(self.number()?.min(MOST_NUMBERS) as usize)
    }

    /// What a slice of numbers holds at first: eight bytes for each number, low byte first. The
    /// bytes of an incomplete last number are passed over.
    pub fn held(&mut self) -> Option<Vec<u64>> {
        let bytes = self.bytes()?;
        Some(bytes.as_chunks().0.iter().map(|number| u64::from_le_bytes(*number)).collect())
    }

    /// Four bytes for each count, low byte first. Missing bytes are 0, and bytes behind the last
    /// count are passed over.
    pub fn tally(&mut self) -> Option<Tally> {
        let mut bytes = self.bytes()?;
        bytes.resize(4 * COUNTS, 0);
        let mut tally = ZERO;
        for (count, bytes) in tally.as_flattened_mut().iter_mut().zip(bytes.as_chunks().0) {
            *count = u32::from_le_bytes(*bytes);
        }
        Some(tally)
    }

    /// The number of a candidate, whether there is one or not.
    pub fn candidate(&mut self) -> Option<usize> {
        Some(self.number()? as usize)
    }

    /// The first x of a practice sheet, which has four bytes.
    pub fn first(&mut self) -> Option<u32> {
        Some(self.number()?.min(u64::from(u32::MAX)) as u32)
    }

    /// How many rules of a practice sheet are drawn, whether so many may be or not.
    pub fn m(&mut self) -> Option<usize> {
        Some(self.number()? as usize)
    }

    pub fn ended(&mut self) -> bool {
        self.left.next().is_none()
    }
}

/// The bytes of pieces, one behind the other.
pub fn pieces<'a>(texts: impl Iterator<Item = &'a str>) -> Option<Vec<u8>> {
    let mut bytes = Vec::new();
    for text in texts {
        let (times, digits) = text.split_once('*').unwrap_or(("1", text));
        let (times, piece) = (decimal(times)?, pairs(digits)?);
        let room = (LONGEST - bytes.len()) / piece.len();
        if !(1..=room as u64).contains(&times) {
            return None;
        }
        bytes.extend(piece.repeat(times as usize));
    }
    Some(bytes)
}

/// The bytes of one or more pairs of digits.
fn pairs(digits: &str) -> Option<Vec<u8>> {
    if digits.is_empty() || !digits.len().is_multiple_of(2) {
        return None;
    }
    digits.as_bytes().chunks(2).map(|pair| Some(16 * digit(pair[0])? + digit(pair[1])?)).collect()
}

fn digit(sign: u8) -> Option<u8> {
    match sign {
        b'0'..=b'9' => Some(sign - b'0'),
        b'A'..=b'F' => Some(sign - b'A' + 10),
        _ => None,
    }
}

/// A decimal number, 2^64 - 1 where it is larger.
fn decimal(text: &str) -> Option<u64> {
    if text.is_empty() || !text.bytes().all(|sign| sign.is_ascii_digit()) {
        return None;
    }
    Some(text.parse().unwrap_or(u64::MAX))
}
