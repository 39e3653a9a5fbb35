//! The lines of the input.

use super::call::Call;

pub enum Line<'a> {
    /// It is printed as it is.
    Heading,
    /// Neither a heading nor a row, for it has no colon.
    Nameless,
    /// What stands before the colon and behind it.
    Row { name: &'a str, behind: &'a str },
}

impl Line<'_> {
    pub fn read(text: &str) -> Line<'_> {
        if text.is_empty() || text.starts_with('#') {
            return Line::Heading;
        }
        match text.split_once(':') {
            Some((name, behind)) => Line::Row { name, behind },
            None => Line::Nameless,
        }
    }
}

/// How many lines of the input are no headings.
pub fn count(input: &str) -> usize {
    input.lines().filter(|text| !matches!(Line::read(text), Line::Heading)).count()
}

/// The call of the first row of this name.
pub fn find(input: &str, wanted: &str) -> Option<Call> {
    input.lines().find_map(|text| match Line::read(text) {
        Line::Row { name, behind } if name == wanted => Call::read(behind),
        _ => None,
    })
}
