//! The stored output beside what must be printed by the reference.

use super::answers::answer;
use super::call::Call;
use super::line::Line;

/// What differs, each with the line's number and name, what is expected and what is found.
pub fn differences(input: &str, output: &str) -> Vec<String> {
    let rows: Vec<&str> = input.lines().collect();
    let lines: Vec<&str> = output.split_terminator('\n').collect();
    let mut found = Vec::new();
    if rows.len() != lines.len() {
        found.push(format!("expected {} lines\nfound    {}", rows.len(), lines.len()));
    }
    for (number, (row, stored)) in rows.iter().zip(lines).enumerate() {
        if let Some(difference) = difference(row, stored) {
            found.push(format!("line {}, {difference}", number + 1));
        }
    }
    if !output.ends_with('\n') {
        found.push("expected an end of the last line\nfound    none".to_string());
    }
    found
}

/// How the stored line differs from what must be printed for a line of the input.
fn difference(text: &str, stored: &str) -> Option<String> {
    let (name, expected) = match Line::read(text) {
        Line::Heading => ("a heading", Ok(text.to_string())),
        Line::Nameless => ("no row", Ok(format!("{text}: unreadable"))),
        Line::Row { name, behind } => (name, printed(name, behind, stored)),
    };
    match expected {
        Ok(line) if line == stored => None,
        Ok(line) => Some(format!("{name}\nexpected {line}\nfound    {stored}")),
        Err(wrong) => Some(format!(
            "{name}\nexpected a form that may be made, but {wrong}\nfound    {stored}"
        )),
    }
}

/// The line of a row.
fn printed(name: &str, behind: &str, stored: &str) -> Result<String, String> {
    let head = format!("{name}: ");
    let told = match Call::read(behind) {
        Some(call) => answer(&call, stored.strip_prefix(&head).unwrap_or_default())?,
        None => "unreadable".to_string(),
    };
    Ok(head + &told)
}
