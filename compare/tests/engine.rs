//! The engine against the reference; the program `compare` runs more cases.

use compare::engine::Ewerflint;
use compare::harness::run::run;

#[test]
fn engine_and_reference_agree() {
    let run = run(&Ewerflint, 2000, 2);
    run.unwrap_or_else(|failure| panic!("case {:?}\n{}", failure.case, failure.difference));
}
