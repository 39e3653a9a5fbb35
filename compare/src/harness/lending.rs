//! What calls are lent and write to, filled with patterns, so that every change shows.

use crate::generate::random::Random;
use crate::hex::runs;
use std::fmt::LowerHex;

/// Cells before and behind a lent slice that no call may touch.
const MARGIN: usize = 8;

pub trait Cell: Copy + PartialEq {
    fn of(number: u64) -> Self;
}

impl Cell for u8 {
    fn of(number: u64) -> u8 {
        number as u8
    }
}

impl Cell for u32 {
    fn of(number: u64) -> u32 {
        number as u32
    }
}

impl Cell for u64 {
    fn of(number: u64) -> u64 {
        number
    }
}

/// What a slice holds before a call.
#[derive(Clone, Copy)]
enum Fill {
    Zeros,
    Ones,
    Counting,
    Random,
}

impl Fill {
    fn cell<T: Cell>(self, random: &mut Random, place: usize) -> T {
        T::of(match self {
            Fill::Zeros => 0,
            Fill::Ones => u64::MAX,
            Fill::Counting => place as u64,
            Fill::Random => random.word(),
        })
    }
}

/// A slice with a margin on both sides.
#[derive(Clone, PartialEq)]
pub struct Lending<T> {
    cells: Vec<T>,
}

impl<T: Cell> Lending<T> {
    pub fn new(random: &mut Random, length: usize) -> Lending<T> {
        let fill = *random.pick(&[Fill::Zeros, Fill::Ones, Fill::Counting, Fill::Random]);
        let cells = (0..length + 2 * MARGIN).map(|place| fill.cell(random, place)).collect();
        Lending { cells }
    }

    /// A slice that begins with these cells, as many of them as it has room for.
    pub fn holding(random: &mut Random, length: usize, cells: &[T]) -> Lending<T> {
        let mut lending = Lending::new(random, length);
        for (cell, held) in lending.slice_mut().iter_mut().zip(cells) {
            *cell = *held;
        }
        lending
    }

    pub fn slice(&self) -> &[T] {
        &self.cells[MARGIN..self.cells.len() - MARGIN]
    }

    pub fn slice_mut(&mut self) -> &mut [T] {
        let end = self.cells.len() - MARGIN;
        &mut self.cells[MARGIN..end]
    }

    /// Whether all but the first cells of the slice, margins included, are those of the other.
    pub fn keeps_past(&self, other: &Lending<T>, written: usize) -> bool {
        let from = MARGIN + written;
        self.cells.len() == other.cells.len()
            && self.cells[..MARGIN] == other.cells[..MARGIN]
            && self.cells[from..] == other.cells[from..]
    }
}

/// All that a call may write to: lent slices and the places of results.
#[derive(Clone, PartialEq)]
pub struct Lent {
    /// Form, tree, masks or sheet.
    pub bytes: Lending<u8>,
    /// Relations or counts.
    pub numbers: Lending<u64>,
    /// Only marking is lent one; other calls have none.
    pub tally: Lending<u32>,
    pub rule: [u16; 7],
    /// Written length, or the bytes that are asked for.
    pub length: usize,
    /// The numbers that are asked for.
    pub asked: usize,
    pub size: u64,
    /// Mask or terminal.
    pub byte: u8,
    pub verdict: u8,
}

impl Lent {
    pub fn new(random: &mut Random, bytes: usize, numbers: usize) -> Lent {
        Lent {
            bytes: Lending::new(random, bytes),
            numbers: Lending::new(random, numbers),
            tally: Lending::new(random, 0),
            rule: [random.word() as u16; 7],
            length: random.word() as usize,
            asked: random.word() as usize,
            size: random.word(),
            byte: random.byte(),
            verdict: random.byte(),
        }
    }

    /// The parts as text, by name.
    pub fn parts(&self) -> [(&'static str, String); 9] {
        [
            ("bytes", counted(self.bytes.slice())),
            ("numbers", counted(self.numbers.slice())),
            ("tally", counted(self.tally.slice())),
            ("rule", format!("{:?}", self.rule)),
            ("length", self.length.to_string()),
            ("numbers asked for", self.asked.to_string()),
            ("size", self.size.to_string()),
            ("mask or terminal", self.byte.to_string()),
            ("verdict", self.verdict.to_string()),
        ]
    }
}

fn counted<T: Cell + LowerHex>(cells: &[T]) -> String {
    format!("({} cells) {}", cells.len(), runs(cells))
}

/// A length that suffices.
pub fn enough(random: &mut Random, need: usize) -> usize {
    need + *random.pick(&[0, 0, 1, 2, 40])
}

/// A length that is too short, though not for what is written, if that is shorter than what is
/// needed.
pub fn short(random: &mut Random, written: usize, need: usize) -> usize {
    random.between(written.min(need - 1), need - 1)
}

/// A length around what is needed: exact, one less, one more, none, or any.
pub fn around(random: &mut Random, need: usize) -> usize {
    match random.below(6) {
        0 | 1 => need.saturating_sub(1),
        2 => need + 1,
        3 => 0,
        4 => random.below(need + 1),
        _ => need,
    }
}
