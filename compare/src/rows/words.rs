//! Answers as program `examples` prints them.

use crate::reference::calls::Room;
use crate::reference::tally::Tally;
use crate::refusal::{Answer, Refusal};
use std::fmt::Display;

/// The refusal, or the text of what is answered.
pub fn told<T>(answer: Answer<T>, text: impl Fn(T) -> String) -> String {
    match answer {
        Ok(value) => text(value),
        Err(Refusal(number)) => format!("refused {number}"),
    }
}

/// The refusal, or a word and what is answered.
pub fn said<T: Display>(word: &str, answer: Answer<T>) -> String {
    told(answer, |value| format!("{word} {value}"))
}

pub fn size_text(size: u64) -> String {
    match size {
        u64::MAX => "over".to_string(),
        exact => format!("size {exact}"),
    }
}

pub fn room_text(room: Room) -> String {
    format!("asked {} {}", room.form_bytes, room.numbers)
}

pub fn rule_text(fields: [u16; 7]) -> String {
    format!("rule {}", fields.map(|field| field.to_string()).join(" "))
}

/// The counts of each candidate that has one other than 0.
pub fn tally_text(tally: Tally) -> String {
    let mut text = "tally".to_string();
    for (candidate, counts) in tally.into_iter().enumerate() {
        if counts != [0; 3] {
            text += &format!(" {candidate} ({})", counts.map(|count| count.to_string()).join(" "));
        }
    }
    text
}

/// The tally after a step, or the refusal and the tally before it.
pub fn step_text(before: Tally, answer: Answer<Tally>) -> String {
    match answer {
        Ok(moved) => tally_text(moved),
        Err(Refusal(number)) => format!("refused {number}, {}", tally_text(before)),
    }
}
