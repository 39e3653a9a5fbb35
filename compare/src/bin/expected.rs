//! Prints generated sheets and the line that program `mark` must print for each: `expected
//! [sheets] [seed]`. A line of the output is the sheet in hexadecimal as a row has it, a colon, a
//! space and the program's line.

use compare::generate::random::Random;
use compare::generate::{damage, sheets};
use compare::hex::hex;
use compare::reference::program::line;
use std::process::ExitCode;

const SHEETS: u64 = 3000;
const SEED: u64 = 7;

/// Longer sheets are few, so that the output can be kept.
const LONG: usize = 250;

fn main() -> ExitCode {
    let mut numbers = std::env::args().skip(1).map(|text| text.parse::<u64>());
    let mut number = |default: u64| numbers.next().unwrap_or(Ok(default));
    let (Ok(count), Ok(seed)) = (number(SHEETS), number(SEED)) else {
        eprintln!("usage: expected [sheets] [seed]");
        return ExitCode::from(2);
    };
    for sheet in (0..count).map(|case| generated(seed, case)) {
        let bytes = if sheet.is_empty() { "-".to_string() } else { hex(&sheet).to_uppercase() };
        println!("{bytes}: {}", line(&sheet));
    }
    ExitCode::SUCCESS
}

/// A lawful sheet or a damaged one.
fn generated(seed: u64, case: u64) -> Vec<u8> {
    let mut random = Random::of_case(seed, case);
    loop {
        let plan = sheets::plan(&mut random);
        let sheet = match random.below(2) {
            0 => plan.sheet(),
            _ => damage::damaged(&mut random, &plan),
        };
        if sheet.len() <= LONG || random.one_in(40) {
            return sheet;
        }
    }
}
