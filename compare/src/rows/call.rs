//! The calls of rows.

use super::fields::Fields;
use crate::reference::tally::{Step, Tally};

/// A call with what it reads and the lengths of the slices it is lent.
pub enum Call {
    Line { sheet: Vec<u8> },
    Make { sheet: Vec<u8>, room: usize },
    Mark { sheet: Vec<u8>, tally: Tally, room: usize, numbers: usize, candidate: usize },
    Certify { sheet: Vec<u8>, rooms: Rooms },
    Room { sheet: Vec<u8> },
    Blackboard { sheet: Vec<u8>, room: usize },
    Rule { alphabet: Vec<u8>, form: Vec<u8>, number: usize },
    Rules { alphabet: Vec<u8>, form: Vec<u8> },
    Size { alphabet: Vec<u8>, form: Vec<u8>, numbers: usize },
    Label { alphabet: Vec<u8>, form: Vec<u8>, position: u64, numbers: usize },
    Unfold { alphabet: Vec<u8>, form: Vec<u8>, numbers: usize, room: usize },
    Evaluate { alphabet: Vec<u8>, automaton: Vec<u8>, form: Vec<u8>, numbers: usize },
    Add { adding: Adding, held: Vec<u64>, numbers: usize },
    Walk { alphabet: Vec<u8>, automaton: Vec<u8>, tree: Vec<u8>, room: usize },
    Wrap { alphabet: Vec<u8>, tree: Vec<u8>, automaton: Vec<u8>, room: usize },
    Practice { automaton: Vec<u8>, first: u32, m: usize, room: usize },
    Step { step: Step, tally: Tally, candidate: usize },
}

/// A transition with what it is added to.
pub struct Adding {
    pub alphabet: Vec<u8>,
    pub form: Vec<u8>,
    pub automaton: Vec<u8>,
    pub transition: Vec<u8>,
}

impl Adding {
    fn read(fields: &mut Fields) -> Option<Adding> {
        Some(Adding {
            alphabet: fields.bytes()?,
            form: fields.bytes()?,
            automaton: fields.bytes()?,
            transition: fields.bytes()?,
        })
    }
}

/// The lengths of the slices of form making, evaluation, unfolding and walk in turn.
pub struct Rooms {
    pub form: usize,
    pub relations: usize,
    pub counts: usize,
    pub tree: usize,
    pub masks: usize,
}

impl Rooms {
    fn read(fields: &mut Fields) -> Option<Rooms> {
        Some(Rooms {
            form: fields.room()?,
            relations: fields.numbers()?,
            counts: fields.numbers()?,
            tree: fields.room()?,
            masks: fields.room()?,
        })
    }
}

impl Call {
    /// The call that stands behind a row's colon, if it can be read.
    pub fn read(text: &str) -> Option<Call> {
        let mut fields = Fields::of(text.strip_prefix(' ')?);
        let call = match fields.word()? {
            name @ ("line" | "make" | "mark" | "certify" | "room" | "blackboard") => {
                sheet_call(name, &mut fields)?
            }
            name @ ("rule" | "rules" | "size" | "label" | "unfold") => {
                form_call(name, &mut fields)?
            }
            name @ ("evaluate" | "walk" | "wrap") => tree_call(name, &mut fields)?,
            "add" => add_call(&mut fields)?,
            "practice" => practice_call(&mut fields)?,
            "accept" => step_call(Step::Accept, &mut fields)?,
            "decline" => step_call(Step::Decline, &mut fields)?,
            "turn_away" => step_call(Step::TurnAway, &mut fields)?,
            _ => return None,
        };
        fields.ended().then_some(call)
    }

    /// The sheet that the call reads.
    pub fn sheet(self) -> Option<Vec<u8>> {
        match self {
            Call::Line { sheet }
            | Call::Make { sheet, .. }
            | Call::Mark { sheet, .. }
            | Call::Certify { sheet, .. }
            | Call::Room { sheet }
            | Call::Blackboard { sheet, .. } => Some(sheet),
            _ => None,
        }
    }
}

fn sheet_call(name: &str, fields: &mut Fields) -> Option<Call> {
    let sheet = fields.bytes()?;
    Some(match name {
        "line" => Call::Line { sheet },
        "make" => Call::Make { sheet, room: fields.room()? },
        "mark" => Call::Mark {
            sheet,
            tally: fields.tally()?,
            room: fields.room()?,
            numbers: fields.numbers()?,
            candidate: fields.candidate()?,
        },
        "certify" => Call::Certify { sheet, rooms: Rooms::read(fields)? },
        "room" => Call::Room { sheet },
        _ => Call::Blackboard { sheet, room: fields.room()? },
    })
}

fn form_call(name: &str, fields: &mut Fields) -> Option<Call> {
    let (alphabet, form) = (fields.bytes()?, fields.bytes()?);
    Some(match name {
        "rule" => Call::Rule { alphabet, form, number: fields.rule()? },
        "rules" => Call::Rules { alphabet, form },
        "size" => Call::Size { alphabet, form, numbers: fields.numbers()? },
        "label" => {
            Call::Label { alphabet, form, position: fields.number()?, numbers: fields.numbers()? }
        }
        _ => Call::Unfold { alphabet, form, numbers: fields.numbers()?, room: fields.room()? },
    })
}

fn tree_call(name: &str, fields: &mut Fields) -> Option<Call> {
    let (alphabet, second, third) = (fields.bytes()?, fields.bytes()?, fields.bytes()?);
    Some(match name {
        "evaluate" => {
            Call::Evaluate { alphabet, automaton: second, form: third, numbers: fields.numbers()? }
        }
        "walk" => Call::Walk { alphabet, automaton: second, tree: third, room: fields.room()? },
        _ => Call::Wrap { alphabet, tree: second, automaton: third, room: fields.room()? },
    })
}

fn add_call(fields: &mut Fields) -> Option<Call> {
    Some(Call::Add {
        adding: Adding::read(fields)?,
        held: fields.held()?,
        numbers: fields.numbers()?,
    })
}

fn practice_call(fields: &mut Fields) -> Option<Call> {
    Some(Call::Practice {
        automaton: fields.bytes()?,
        first: fields.first()?,
        m: fields.m()?,
        room: fields.room()?,
    })
}

fn step_call(step: Step, fields: &mut Fields) -> Option<Call> {
    Some(Call::Step { step, tally: fields.tally()?, candidate: fields.candidate()? })
}
