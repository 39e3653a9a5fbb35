//! Puts generated inputs through an engine's calls and compares with the reference.

pub mod adding;
pub mod blackboard;
pub mod case;
pub mod checker;
pub mod difference;
pub mod form_calls;
pub mod histogram;
pub mod lending;
pub mod list;
pub mod making;
pub mod marking;
pub mod named;
pub mod named_adding;
pub mod named_alphabets;
pub mod named_blackboard;
pub mod named_markings;
pub mod named_practice;
pub mod named_room;
pub mod named_wide;
pub mod practice;
pub mod request;
pub mod room;
pub mod run;
pub mod sheet_calls;
pub mod tree_calls;
