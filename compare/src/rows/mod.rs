//! Rows of calls: the input of program `examples`, and what it must print for each row by the
//! reference.
//!
//! An empty line and a line that begins with `#` are headings. Any other line is a name without a
//! colon, a colon, and behind a space each a call and its fields. A byte string is `-` for none,
//! or pieces joined by `+`; a piece is hexadecimal in capitals, or a number, a star and what
//! stands there so often. A number is decimal.
//!
//! The program also reads some lines that are not written so, such as a repetition of no times.
//! Here they are unreadable, so that a row of that kind shows as a difference.

pub mod answers;
pub mod call;
pub mod comparison;
pub mod fields;
pub mod fixed;
pub mod free;
pub mod line;
pub mod printed;
pub mod stored;
pub mod words;

pub use comparison::differences;
pub use stored::sheet;
