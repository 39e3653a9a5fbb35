//! What program `examples` must print behind a row's name: the answer and the lent slices.

use super::call::Call;
use super::words::step_text;
use super::{fixed, free};
use crate::reference::{program, tally};

/// Which form is made is free, so a form is taken out of the stored text. The error tells what is
/// wrong with a form that may not be made.
pub fn answer(call: &Call, stored: &str) -> Result<String, String> {
    Ok(match call {
        Call::Line { sheet } => program::line(sheet),
        Call::Make { sheet, room } => free::make(sheet, *room, stored)?,
        Call::Mark { sheet, tally, room, numbers, candidate } => {
            free::mark(sheet, *tally, *room, *numbers, *candidate, stored)?
        }
        Call::Certify { sheet, rooms } => free::certify(sheet, rooms, stored)?,
        Call::Room { sheet } => fixed::room(sheet),
        Call::Blackboard { sheet, room } => fixed::blackboard(sheet, *room),
        Call::Rule { alphabet, form, number } => fixed::rule(alphabet, form, *number),
        Call::Rules { alphabet, form } => fixed::rules(alphabet, form),
        Call::Size { alphabet, form, numbers } => fixed::size(alphabet, form, *numbers),
        Call::Label { alphabet, form, position, numbers } => {
            fixed::label(alphabet, form, *position, *numbers)
        }
        Call::Unfold { alphabet, form, numbers, room } => {
            fixed::unfold(alphabet, form, *numbers, *room)
        }
        Call::Evaluate { alphabet, automaton, form, numbers } => {
            fixed::evaluate(alphabet, automaton, form, *numbers)
        }
        Call::Add { adding, held, numbers } => fixed::add(adding, held, *numbers),
        Call::Walk { alphabet, automaton, tree, room } => {
            fixed::walk(alphabet, automaton, tree, *room)
        }
        Call::Wrap { alphabet, tree, automaton, room } => {
            fixed::wrap(alphabet, tree, automaton, *room)
        }
        Call::Practice { automaton, first, m, room } => {
            fixed::practice(*first, *m, automaton, *room)
        }
        Call::Step { step, tally, candidate } => {
            step_text(*tally, tally::step(*tally, *candidate, *step))
        }
    })
}
