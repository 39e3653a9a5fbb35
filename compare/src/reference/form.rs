//! The one-hole form: reading its bytes and checking them against the alphabet in its head.

use super::alphabet::Alphabet;
use super::head::{self, Head, word};
use crate::refusal::{Answer, Refusal};

/// A child of a form rule's terminal.
#[derive(Clone, Copy)]
pub enum Child {
    Rule(usize),
    Hole,
}

#[derive(Clone)]
pub enum FormRule {
    /// Kinds 0 and 1: a terminal over its children, one of them open in kind 1.
    Node { terminal: u8, children: Vec<Child>, open: bool },
    /// Kind 2: a rule of rank 1 with one of rank 0 in its open place.
    Applied { outer: usize, inner: usize },
    /// Kind 3: the same with one of rank 1.
    Composed { outer: usize, inner: usize },
}

impl FormRule {
    pub fn rank(&self) -> usize {
        match self {
            FormRule::Node { open: false, .. } | FormRule::Applied { .. } => 0,
            FormRule::Node { open: true, .. } | FormRule::Composed { .. } => 1,
        }
    }

    /// The rules that this one calls.
    pub fn calls(&self) -> Vec<usize> {
        match self {
            FormRule::Node { children, .. } => {
                let called = |child: &Child| match child {
                    Child::Rule(number) => Some(*number),
                    Child::Hole => None,
                };
                children.iter().filter_map(called).collect()
            }
            FormRule::Applied { outer, inner } | FormRule::Composed { outer, inner } => {
                vec![*outer, *inner]
            }
        }
    }
}

pub struct Form {
    /// The alphabet in the head, which the rules are read against.
    pub alphabet: Alphabet,
    pub rules: Vec<FormRule>,
    pub start: usize,
}

impl Form {
    /// Refusal 18, which looks at the form's own bytes alone.
    pub fn read(bytes: &[u8]) -> Answer<Form> {
        parse(bytes).ok_or(Refusal(18))
    }

    /// Refusal 18, then 28: the form's alphabet is another than the one given with a call.
    pub fn read_over(given: &Alphabet, bytes: &[u8]) -> Answer<Form> {
        let form = Form::read(bytes)?;
        if form.alphabet != *given {
            return Err(Refusal(28));
        }
        Ok(form)
    }

    /// Of each rule, whether the start is that rule or calls it, directly or through others.
    pub fn reached(&self) -> Vec<bool> {
        let mut reached = vec![false; self.rules.len()];
        reached[self.start] = true;
        for number in (0..self.rules.len()).rev() {
            if reached[number] {
                self.rules[number].calls().into_iter().for_each(|lower| reached[lower] = true);
            }
        }
        reached
    }
}

/// The kind, terminal, hole and four slots of a rule as its twelve bytes hold them.
pub fn fields(form: &[u8], number: usize) -> [u16; 7] {
    let bytes = rule_bytes(form, number);
    let slot = |place: usize| word(bytes, 4 + 2 * place);
    let byte = |place: usize| u16::from(bytes[place]);
    [byte(0), byte(1), byte(2), slot(0), slot(1), slot(2), slot(3)]
}

fn rule_bytes(form: &[u8], number: usize) -> &[u8] {
    &form[head::end(form) + 12 * number..][..12]
}

fn parse(bytes: &[u8]) -> Option<Form> {
    let Head { count, start, alphabet } = Head::read(bytes)?;
    if !(1..=2048).contains(&count) || bytes.len() != head::end(bytes) + 12 * count {
        return None;
    }
    let mut rules = Vec::new();
    for number in 0..count {
        let padding = rule_bytes(bytes, number)[3];
        let rule = rule(&alphabet, &rules, fields(bytes, number))?;
        rules.push((padding == 0).then_some(rule)?);
    }
    (rules.get(start)?.rank() == 0).then_some(Form { alphabet, rules, start })
}

/// The rule of these fields after the lower ones, if they keep the form's rules.
fn rule(alphabet: &Alphabet, lower: &[FormRule], fields: [u16; 7]) -> Option<FormRule> {
    let [kind, terminal, hole, slots @ ..] = fields;
    match (kind, terminal, hole) {
        (0, _, 0) => node(alphabet, lower, terminal as u8, 0, &slots),
        (1, _, 1..) => node(alphabet, lower, terminal as u8, usize::from(hole), &slots),
        (2, 0xFF, 0) => {
            let (outer, inner) = pair(&slots)?;
            (rank(lower, outer)? == 1 && rank(lower, inner)? == 0)
                .then_some(FormRule::Applied { outer, inner })
        }
        (3, 0xFF, 0) => {
            let (outer, inner) = pair(&slots)?;
            (rank(lower, outer)? == 1 && rank(lower, inner)? == 1)
                .then_some(FormRule::Composed { outer, inner })
        }
        _ => None,
    }
}

/// Kinds 0 and 1; hole 0 stands for no hole.
fn node(
    alphabet: &Alphabet,
    lower: &[FormRule],
    terminal: u8,
    hole: usize,
    slots: &[u16],
) -> Option<FormRule> {
    let (used, unused) = slots.split_at(alphabet.rank(terminal)?);
    if hole > used.len() || unused.iter().any(|&slot| slot != 0xFFFF) {
        return None;
    }
    let child = |(place, &slot): (usize, &u16)| {
        if place + 1 == hole {
            return (slot == 0xFFFF).then_some(Child::Hole);
        }
        (rank(lower, usize::from(slot))? == 0).then_some(Child::Rule(usize::from(slot)))
    };
    let children = used.iter().enumerate().map(child).collect::<Option<Vec<Child>>>()?;
    Some(FormRule::Node { terminal, children, open: hole > 0 })
}

/// Slots 0 and 1 where the others are unused.
fn pair(slots: &[u16]) -> Option<(usize, usize)> {
    (slots[2] == 0xFFFF && slots[3] == 0xFFFF)
        .then_some((usize::from(slots[0]), usize::from(slots[1])))
}

/// The rank of a lower rule, where the number is one.
fn rank(lower: &[FormRule], number: usize) -> Option<usize> {
    Some(lower.get(number)?.rank())
}
