//! The calls whose results the documents fix: all but form making and marking, where the form is
//! free. Each checks in the documents' order and writes to what it is lent only when it refuses
//! nothing.

use super::adding;
use super::alphabet::Alphabet;
use super::automaton::Automaton;
use super::blackboard::Blackboard;
use super::counts::{self, Count};
use super::form::{self, Form};
use super::label;
use super::practice;
use super::relations;
use super::sheet::Sheet;
use super::tree::Tree;
use super::unfolding;
use crate::refusal::{Answer, Refusal};

pub fn evaluate(
    alphabet: &[u8],
    automaton: &[u8],
    form: &[u8],
    relations: &mut [u64],
) -> Answer<u8> {
    let alphabet = Alphabet::read(alphabet)?;
    let automaton = Automaton::read(&alphabet, automaton)?;
    let form = Form::read_over(&alphabet, form)?;
    let entries = relations::of(&automaton, &form);
    long_enough(relations, entries.len(), 19)?;
    put(relations, &entries);
    Ok(entries[form.start] as u8)
}

/// The mask by the relations that are carried over to the longer automaton.
pub fn add_transition(
    alphabet: &[u8],
    form: &[u8],
    automaton: &[u8],
    transition: &[u8],
    relations: &mut [u64],
) -> Answer<u8> {
    let alphabet = Alphabet::read(alphabet)?;
    let longer = adding::longer(&alphabet, automaton, transition)?;
    let form = Form::read_over(&alphabet, form)?;
    long_enough(relations, form.rules.len(), 19)?;
    adding::redo(&longer, &form, transition[0], relations);
    Ok(relations[form.start] as u8)
}

pub fn unfold(alphabet: &[u8], form: &[u8], counts: &mut [u64], tree: &mut [u8]) -> Answer<usize> {
    let (form, found) = counted(alphabet, form, counts)?;
    if found[form.start].nodes > tree.len() as u64 {
        return Err(Refusal(20));
    }
    let preorder = unfolding::preorder(&form);
    put(counts, &counts::entries(&found));
    put(tree, &preorder);
    Ok(preorder.len())
}

/// 2^64 - 1 stands for "over".
pub fn size(alphabet: &[u8], form: &[u8], counts: &mut [u64]) -> Answer<u64> {
    let (form, found) = counted(alphabet, form, counts)?;
    put(counts, &counts::entries(&found));
    Ok(found[form.start].nodes)
}

pub fn label(alphabet: &[u8], form: &[u8], position: u64, counts: &mut [u64]) -> Answer<u8> {
    let (form, found) = counted(alphabet, form, counts)?;
    if position == u64::MAX || position >= found[form.start].nodes {
        return Err(Refusal(21));
    }
    put(counts, &counts::entries(&found));
    Ok(label::at(&form, &found, position))
}

pub fn read_rule(alphabet: &[u8], form: &[u8], number: usize) -> Answer<[u16; 7]> {
    if number >= opened(alphabet, form)?.rules.len() {
        return Err(Refusal(21));
    }
    Ok(form::fields(form, number))
}

pub fn walk(alphabet: &[u8], automaton: &[u8], tree: &[u8], masks: &mut [u8]) -> Answer<u8> {
    let alphabet = Alphabet::read(alphabet)?;
    let automaton = Automaton::read(&alphabet, automaton)?;
    let tree = whole_tree(&alphabet, tree, 4096)?;
    let found = tree.masks(&automaton);
    long_enough(masks, found.len(), 19)?;
    put(masks, &found);
    Ok(found[0])
}

pub fn wrap(alphabet: &[u8], tree: &[u8], automaton: &[u8], sheet: &mut [u8]) -> Answer<usize> {
    let read = Alphabet::read(alphabet)?;
    whole_tree(&read, tree, 128)?;
    Automaton::read(&read, automaton)?;
    let rules = [&[0, tree.len() as u8], tree].concat();
    let written = joined(&[alphabet, &rules, automaton]);
    long_enough(sheet, written.len(), 24)?;
    put(sheet, &written);
    Ok(written.len())
}

/// The practice sheet of a first x, with rules 1 to m drawn.
pub fn practice(first: u32, m: usize, automaton: &[u8], sheet: &mut [u8]) -> Answer<usize> {
    if m == 0 || m > 20 {
        return Err(Refusal(27));
    }
    Automaton::read(&Alphabet::read(&practice::ALPHABET)?, automaton)?;
    let rules = practice::rules(&practice::drawn(first, m));
    let written = joined(&[&practice::ALPHABET, &rules, automaton]);
    long_enough(sheet, written.len(), 24)?;
    put(sheet, &written);
    Ok(written.len())
}

/// What making and marking of a sheet ask for.
pub struct Room {
    pub form_bytes: usize,
    pub numbers: usize,
}

/// Refusals 1 to 16.
pub fn room(sheet: &[u8]) -> Answer<Room> {
    let sheet = Sheet::read(sheet)?;
    Ok(Room { form_bytes: sheet.form_need(), numbers: sheet.relations_need() })
}

/// The mask of the sheet by its rules' tables: refusals 1 to 16, then 19.
pub fn blackboard(sheet: &[u8], table: &mut [u8]) -> Answer<u8> {
    Blackboard::of(&Sheet::read(sheet)?).put(table)
}

/// A sheet of these bodies, with the contents that join them.
pub fn joined(bodies: &[&[u8]; 3]) -> Vec<u8> {
    let mut offset = 12;
    let mut sheet = Vec::new();
    for body in bodies {
        sheet.extend((offset as u16).to_le_bytes());
        sheet.extend((body.len() as u16).to_le_bytes());
        offset += body.len();
    }
    sheet.extend(bodies.concat());
    sheet
}

/// Refusals 3, 4, 18 and 28 of every call on a form that is given no automaton.
fn opened(alphabet: &[u8], form: &[u8]) -> Answer<Form> {
    Form::read_over(&Alphabet::read(alphabet)?, form)
}

/// The same and then 19, of unfolding, size and label.
fn counted(alphabet: &[u8], form: &[u8], counts: &[u64]) -> Answer<(Form, Vec<Count>)> {
    let form = opened(alphabet, form)?;
    let found = counts::of(&form);
    long_enough(counts, 2 * found.len(), 19)?;
    Ok((form, found))
}

/// Refusals 22 and 23.
fn whole_tree(alphabet: &Alphabet, bytes: &[u8], most: usize) -> Answer<Tree> {
    if bytes.len() > most {
        return Err(Refusal(22));
    }
    Tree::read(alphabet, bytes).ok_or(Refusal(23))
}

fn long_enough<T>(slice: &[T], need: usize, refusal: u8) -> Answer<()> {
    if slice.len() < need { Err(Refusal(refusal)) } else { Ok(()) }
}

/// Writes at the front; what lies behind is kept.
fn put<T: Copy>(slice: &mut [T], values: &[T]) {
    slice[..values.len()].copy_from_slice(values);
}
