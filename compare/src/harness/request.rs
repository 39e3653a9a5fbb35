//! The calls whose results the documents fix, each with what it reads.

use super::lending::Lent;
use crate::calls::FixedCalls;
use crate::hex::hex;

#[derive(Clone, Copy)]
pub enum Request<'a> {
    Evaluate { alphabet: &'a [u8], automaton: &'a [u8], form: &'a [u8] },
    Add { alphabet: &'a [u8], form: &'a [u8], automaton: &'a [u8], transition: &'a [u8] },
    Unfold { alphabet: &'a [u8], form: &'a [u8] },
    Size { alphabet: &'a [u8], form: &'a [u8] },
    Label { alphabet: &'a [u8], form: &'a [u8], position: u64 },
    ReadRule { alphabet: &'a [u8], form: &'a [u8], number: usize },
    Walk { alphabet: &'a [u8], automaton: &'a [u8], tree: &'a [u8] },
    Wrap { alphabet: &'a [u8], tree: &'a [u8], automaton: &'a [u8] },
    Practice { first: u32, m: usize, automaton: &'a [u8] },
    Room { sheet: &'a [u8] },
}

impl<'a> Request<'a> {
    /// Makes the call and returns its code.
    pub fn put(self, engine: &dyn FixedCalls, lent: &mut Lent) -> u8 {
        let (bytes, numbers) = (lent.bytes.slice_mut(), lent.numbers.slice_mut());
        match self {
            Request::Evaluate { alphabet, automaton, form } => {
                engine.evaluate(alphabet, automaton, form, numbers, &mut lent.byte)
            }
            Request::Add { alphabet, form, automaton, transition } => {
                let mask = &mut lent.byte;
                engine.add_transition(alphabet, form, automaton, transition, numbers, mask)
            }
            Request::Unfold { alphabet, form } => {
                engine.unfold(alphabet, form, numbers, bytes, &mut lent.length)
            }
            Request::Size { alphabet, form } => {
                engine.size(alphabet, form, numbers, &mut lent.size)
            }
            Request::Label { alphabet, form, position } => {
                engine.label(alphabet, form, position, numbers, &mut lent.byte)
            }
            Request::ReadRule { alphabet, form, number } => {
                engine.read_rule(alphabet, form, number, &mut lent.rule)
            }
            Request::Walk { alphabet, automaton, tree } => {
                engine.walk(alphabet, automaton, tree, bytes, &mut lent.byte)
            }
            Request::Wrap { alphabet, tree, automaton } => {
                engine.wrap(alphabet, tree, automaton, bytes, &mut lent.length)
            }
            Request::Practice { first, m, automaton } => {
                engine.practice(first, m, automaton, bytes, &mut lent.length)
            }
            Request::Room { sheet } => engine.room(sheet, &mut lent.length, &mut lent.asked),
        }
    }

    pub fn name(self) -> &'static str {
        match self {
            Request::Evaluate { .. } => "evaluate",
            Request::Add { .. } => "add_transition",
            Request::Unfold { .. } => "unfold",
            Request::Size { .. } => "size",
            Request::Label { .. } => "label",
            Request::ReadRule { .. } => "read_rule",
            Request::Walk { .. } => "walk",
            Request::Wrap { .. } => "wrap",
            Request::Practice { .. } => "practice",
            Request::Room { .. } => "room",
        }
    }

    /// What the call reads as text, by name.
    pub fn inputs(self) -> Vec<(&'static str, String)> {
        let slices = self.slices().into_iter();
        let mut inputs: Vec<_> = slices.map(|(name, bytes)| (name, hex(bytes))).collect();
        match self {
            Request::Label { position, .. } => inputs.push(("position", position.to_string())),
            Request::ReadRule { number, .. } => inputs.push(("number", number.to_string())),
            Request::Practice { first, m, .. } => {
                inputs.extend([("first x", first.to_string()), ("m", m.to_string())]);
            }
            _ => {}
        }
        inputs
    }

    fn slices(self) -> Vec<(&'static str, &'a [u8])> {
        match self {
            Request::Unfold { alphabet, form }
            | Request::Size { alphabet, form }
            | Request::Label { alphabet, form, .. }
            | Request::ReadRule { alphabet, form, .. } => {
                vec![("alphabet", alphabet), ("form", form)]
            }
            Request::Evaluate { alphabet, automaton, form } => {
                vec![("alphabet", alphabet), ("automaton", automaton), ("form", form)]
            }
            Request::Add { alphabet, form, automaton, transition } => vec![
                ("alphabet", alphabet),
                ("form", form),
                ("automaton", automaton),
                ("transition", transition),
            ],
            Request::Walk { alphabet, automaton, tree }
            | Request::Wrap { alphabet, tree, automaton } => {
                vec![("alphabet", alphabet), ("automaton", automaton), ("tree", tree)]
            }
            Request::Practice { automaton, .. } => vec![("automaton", automaton)],
            Request::Room { sheet } => vec![("sheet", sheet)],
        }
    }
}
