//! Lent slices as program `examples` prints them.

use std::fmt::LowerHex;

/// An element of a lent slice.
pub trait Cell: Copy + PartialEq + LowerHex {
    /// What slices are filled with before a call.
    const FILLING: Self;
    /// How many digits are printed at least.
    const DIGITS: usize;
}

impl Cell for u8 {
    const FILLING: u8 = 0xA5;
    const DIGITS: usize = 2;
}

impl Cell for u64 {
    const FILLING: u64 = 0xA5A5_A5A5_A5A5_A5A5;
    const DIGITS: usize = 1;
}

/// The most equal elements that are printed one by one.
const FEW: usize = 8;

/// A slice as it is lent.
pub fn lent<T: Cell>(length: usize) -> Vec<T> {
    vec![T::FILLING; length]
}

/// A slice that holds these cells at first, as many of them as it has room for.
pub fn lent_holding<T: Cell>(length: usize, held: &[T]) -> Vec<T> {
    let mut cells = lent(length);
    for (cell, held) in cells.iter_mut().zip(held) {
        *cell = *held;
    }
    cells
}

/// The name and the elements up to the last that is not the filling, then how many are left.
pub fn slice<T: Cell>(name: &str, cells: &[T]) -> String {
    let last = cells.iter().rposition(|cell| *cell != T::FILLING);
    let written = last.map_or(0, |last| last + 1);
    let elements: String =
        cells[..written].chunk_by(|left, right| left == right).map(run).collect();
    let comma = if written > 0 { "," } else { "" };
    format!("; {name}{elements}{comma} {} kept", cells.len() - written)
}

fn run<T: Cell>(run: &[T]) -> String {
    let element = format!("{:0digits$x}", run[0], digits = T::DIGITS);
    match run.len() {
        1..=FEW => format!(" {element}").repeat(run.len()),
        length => format!(" {length}*{element}"),
    }
}
