//! A tree as a one-rule sheet, and what every sheet that is written has around its rules.

use crate::refusal::{Answer, Refusal};

/// Writes the sheet at the slice's front and answers its length.
pub fn wrap(alphabet: &[u8], tree: &[u8], automaton: &[u8], sheet: &mut [u8]) -> Answer<usize> {
    let (length, rules) = frame(alphabet, 2 + tree.len(), automaton, sheet)?;
    rules[..2].copy_from_slice(&[0, tree.len() as u8]);
    rules[2..].copy_from_slice(tree);
    Ok(length)
}

/// Writes contents, alphabet and automaton around rules of this length; hands back the sheet's
/// length and the place of the rules.
pub fn frame<'a>(
    alphabet: &[u8],
    rules_length: usize,
    automaton: &[u8],
    sheet: &'a mut [u8],
) -> Answer<(usize, &'a mut [u8])> {
    let rules = 12 + alphabet.len();
    let transitions = rules + rules_length;
    let length = transitions + automaton.len();
    if sheet.len() < length {
        return Err(Refusal(24));
    }
    let contents = [12, alphabet.len(), rules, rules_length, transitions, automaton.len()];
    for (place, entry) in sheet.chunks_exact_mut(2).zip(contents) {
        place.copy_from_slice(&(entry as u16).to_le_bytes());
    }
    sheet[12..rules].copy_from_slice(alphabet);
    sheet[transitions..length].copy_from_slice(automaton);
    Ok((length, &mut sheet[rules..transitions]))
}
