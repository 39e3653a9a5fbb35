//! The engine's algorithms in idiomatic Rust: what the engine is timed against, and a second
//! implementation to try the harness on.

mod adding;
mod alphabet;
mod automaton;
mod blackboard;
mod calls;
mod cleaning;
mod counts;
mod evaluation;
mod form;
mod making;
mod marking;
mod practice;
mod preorder;
mod sheet;
mod unfolding;
mod walking;
mod wrapping;

pub use calls::{Idiomatic, form_by};
pub use cleaning::parameters;
pub use sheet::Rule;
