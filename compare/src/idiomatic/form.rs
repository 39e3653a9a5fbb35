//! The one-hole form in memory and as bytes.

use super::alphabet::Alphabet;
use crate::refusal::{Answer, Refusal};

/// The most rules of a form.
pub const MOST_RULES: usize = 2048;

const UNUSED: u16 = 0xFFFF;

/// The bytes of the head: rule count, start, terminal count and ranks.
fn head_length(alphabet: Alphabet) -> usize {
    5 + alphabet.ranks().len()
}

/// The bytes of a form of so many rules.
pub fn length(alphabet: Alphabet, rules: usize) -> usize {
    head_length(alphabet) + 12 * rules
}

#[derive(Clone, Copy)]
pub enum FormRule {
    Tree { terminal: u8, slots: [u16; 4] },
    Context { terminal: u8, hole: u8, slots: [u16; 4] },
    Applied { outer: u16, inner: u16 },
    Composed { outer: u16, inner: u16 },
}

impl FormRule {
    fn is_context(&self) -> bool {
        matches!(self, FormRule::Context { .. } | FormRule::Composed { .. })
    }

    fn bytes(&self) -> [u8; 12] {
        let (kind, terminal, hole, slots) = match *self {
            FormRule::Tree { terminal, slots } => (0, terminal, 0, slots),
            FormRule::Context { terminal, hole, slots } => (1, terminal, hole, slots),
            FormRule::Applied { outer, inner } => (2, 0xFF, 0, [outer, inner, UNUSED, UNUSED]),
            FormRule::Composed { outer, inner } => (3, 0xFF, 0, [outer, inner, UNUSED, UNUSED]),
        };
        let [a, b, c, d] = slots.map(u16::to_le_bytes);
        [kind, terminal, hole, 0, a[0], a[1], b[0], b[1], c[0], c[1], d[0], d[1]]
    }
}

pub struct Form<'a> {
    pub alphabet: Alphabet<'a>,
    pub rules: Vec<FormRule>,
    pub start: u16,
}

impl<'a> Form<'a> {
    /// Refusal 18 by the form's own head, then 28.
    pub fn read(given: Alphabet, bytes: &'a [u8]) -> Answer<Self> {
        let (form, _) = Form::open(given, bytes)?;
        Ok(form)
    }

    /// The form and the bytes of its rules.
    pub fn open(given: Alphabet, bytes: &'a [u8]) -> Answer<(Self, &'a [[u8; 12]])> {
        let (form, rows) = Form::parse(bytes).ok_or(Refusal(18))?;
        if form.alphabet != given {
            return Err(Refusal(28));
        }
        Ok((form, rows))
    }

    fn parse(bytes: &'a [u8]) -> Option<(Self, &'a [[u8; 12]])> {
        let (&[a, b, c, d, terminals], rest) = bytes.split_first_chunk()?;
        let (ranks, body) = rest.split_at_checked(terminals.into())?;
        let alphabet = Alphabet::read(ranks).ok()?;
        let count = usize::from(u16::from_le_bytes([a, b]));
        let start = u16::from_le_bytes([c, d]);
        let (rows, []) = body.as_chunks::<12>() else {
            return None;
        };
        if rows.len() != count || !(1..=MOST_RULES).contains(&count) {
            return None;
        }
        let mut rules = Vec::with_capacity(count);
        for row in rows {
            let rule = parse_rule(alphabet, &rules, row)?;
            rules.push(rule);
        }
        let started = rules.get(usize::from(start))?;
        (!started.is_context()).then_some((Form { alphabet, rules, start }, rows))
    }

    /// Writes the form at the slice's front and answers its length.
    pub fn write(&self, slice: &mut [u8]) -> usize {
        let ranks = self.alphabet.ranks();
        let head = head_length(self.alphabet);
        let length = length(self.alphabet, self.rules.len());
        slice[..2].copy_from_slice(&(self.rules.len() as u16).to_le_bytes());
        slice[2..4].copy_from_slice(&self.start.to_le_bytes());
        slice[4] = ranks.len() as u8;
        slice[5..head].copy_from_slice(ranks);
        for (place, rule) in slice[head..length].chunks_exact_mut(12).zip(&self.rules) {
            place.copy_from_slice(&rule.bytes());
        }
        length
    }
}

/// The kind, terminal, hole and slots of a rule's bytes.
pub fn fields(row: &[u8; 12]) -> [u16; 7] {
    let slot = |place: usize| u16::from_le_bytes([row[place], row[place + 1]]);
    [row[0].into(), row[1].into(), row[2].into(), slot(4), slot(6), slot(8), slot(10)]
}

fn parse_rule(alphabet: Alphabet, lower: &[FormRule], row: &[u8; 12]) -> Option<FormRule> {
    let [kind, terminal, hole, 0, ..] = *row else {
        return None;
    };
    let [_, _, _, slots @ ..] = fields(row);
    let is = |slot: u16, context: bool| {
        lower.get(usize::from(slot)).is_some_and(|rule| rule.is_context() == context)
    };
    let node_fits = || {
        let rank = alphabet.rank(terminal)?;
        let fits = |(place, &slot): (usize, &u16)| match place {
            open if open + 1 == usize::from(hole) => slot == UNUSED,
            used if used < rank => is(slot, false),
            _ => slot == UNUSED,
        };
        let in_place = usize::from(hole) <= rank && (hole > 0) == (kind == 1);
        (in_place && slots.iter().enumerate().all(fits)).then_some(())
    };
    let [outer, inner, spare @ ..] = slots;
    let pair_fits = |context| {
        let bare = (terminal, hole, spare) == (0xFF, 0, [UNUSED; 2]);
        (bare && is(outer, true) && is(inner, context)).then_some(())
    };
    match kind {
        0 => node_fits().map(|()| FormRule::Tree { terminal, slots }),
        1 => node_fits().map(|()| FormRule::Context { terminal, hole, slots }),
        2 => pair_fits(false).map(|()| FormRule::Applied { outer, inner }),
        3 => pair_fits(true).map(|()| FormRule::Composed { outer, inner }),
        _ => None,
    }
}
