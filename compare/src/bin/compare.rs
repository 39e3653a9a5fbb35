//! Compares the stored output of program `examples` and then the engine with the reference:
//! `compare [cases] [seed]`.

use compare::engine::Ewerflint;
use compare::harness::run::{FULL_RUN, run};
use compare::rows::{self, line, stored};
use std::process::ExitCode;

const CASES: u64 = 100_000;
const SEED: u64 = 20_130_101;

/// The most differences of rows that are printed: a line that is missing shifts all behind it.
const SHOWN: usize = 20;

fn main() -> ExitCode {
    let mut numbers = std::env::args().skip(1).map(|text| text.parse::<u64>());
    let mut number = |default: u64| numbers.next().unwrap_or(Ok(default));
    let (Ok(cases), Ok(seed)) = (number(CASES), number(SEED)) else {
        eprintln!("usage: compare [cases] [seed]");
        return ExitCode::from(2);
    };
    if rows_agree() && engine_agrees(cases, seed) { ExitCode::SUCCESS } else { ExitCode::FAILURE }
}

/// Answers the rows of program `examples` and compares with its stored output.
fn rows_agree() -> bool {
    let (input, output) = (stored::input(), stored::output());
    let differences = rows::differences(&input, &output);
    for difference in differences.iter().take(SHOWN) {
        println!("{difference}");
    }
    println!("rows: {}, {} differences", line::count(&input), differences.len());
    differences.is_empty()
}

/// Puts the examples of the documents and generated cases through the engine.
fn engine_agrees(cases: u64, seed: u64) -> bool {
    println!("seed {seed}");
    match run(&Ewerflint, cases, seed) {
        Err(failure) => {
            match failure.case {
                Some(case) => println!("case {case} differs"),
                None => println!("an example of the documents differs"),
            }
            print!("{}", failure.difference);
            false
        }
        Ok(histogram) => {
            print!("{histogram}");
            let missing = histogram.missing();
            if cases >= FULL_RUN && !missing.is_empty() {
                println!("refusals never given: {missing:?}");
                return false;
            }
            println!("{cases} cases, 0 differences");
            true
        }
    }
}
