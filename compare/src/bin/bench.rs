//! Times the engine's calls beside idiomatic Rust and beside Theorem 1's method.

use compare::bench::subjects::subjects;
use compare::bench::table::print;
use compare::engine::Ewerflint;

fn main() {
    print(&Ewerflint, &subjects());
}
