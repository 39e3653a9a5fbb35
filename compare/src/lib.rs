//! A comparison of the engine with an implementation written from document 01 and and
//! of document 02 alone.

#![deny(unsafe_code)]

pub mod bench;
pub mod calls;
#[cfg(feature = "engine")]
#[allow(unsafe_code)]
pub mod engine;
pub mod generate;
pub mod harness;
pub mod hex;
pub mod idiomatic;
pub mod limits;
pub mod reference;
pub mod refusal;
pub mod rows;
