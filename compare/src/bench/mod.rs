//! Timings of the engine's calls beside other ways to the same results.

pub mod adding;
mod lesson;
pub mod practice;
pub mod subjects;
pub mod table;
pub mod timing;
