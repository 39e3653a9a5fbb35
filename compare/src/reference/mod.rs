//! Document 01, with of document 02, in the plainest way: everything is
//! read into trees and lists, and each meaning is worked out as the documents word it. Speed is no
//! aim here.

pub mod adding;
pub mod alphabet;
pub mod automaton;
pub mod blackboard;
pub mod calls;
pub mod counts;
pub mod derivation;
pub mod described;
pub mod facts;
pub mod fingerprint;
pub mod fixed_calls;
pub mod form;
pub mod head;
pub mod label;
pub mod making;
pub mod marking;
pub mod outline;
pub mod practice;
pub mod presence;
pub mod profile;
pub mod program;
pub mod relations;
pub mod rules;
pub mod sheet;
pub mod tally;
pub mod term;
pub mod theorem;
pub mod totals;
pub mod tree;
pub mod unfolding;
