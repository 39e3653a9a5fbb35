//! The stored input and output of program `examples`.

use super::line;
use std::fs;
use std::path::Path;

/// The rows.
pub fn input() -> String {
    read("stdin")
}

/// What the program prints for them.
pub fn output() -> String {
    read("stdout")
}

/// The sheet of the row of this name, which must be there.
pub fn sheet(name: &str) -> Vec<u8> {
    line::find(&input(), name)
        .and_then(|call| call.sheet())
        .unwrap_or_else(|| panic!("crates/examples/stdin has no row `{name}` with a sheet"))
}

fn read(file: &str) -> String {
    let folder = Path::new(env!("CARGO_MANIFEST_DIR")).join("../crates/examples");
    fs::read_to_string(folder.join(file))
        .unwrap_or_else(|error| panic!("crates/examples/{file}: {error}"))
}
