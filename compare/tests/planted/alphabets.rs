//! The faults of forms that carry their alphabet: in what is written, in what is compared with the
//! alphabet given, in what the form is read against, and in the order of the checks.

use crate::engine::{Fault, Planted};
use compare::calls::FixedCalls;
use compare::generate::forms::uses;
use compare::idiomatic::Idiomatic;
use compare::reference::form::fields;
use compare::reference::head::{Head, TERMINALS_AT, end, ranks};
use compare::reference::sheet::Sheet;

/// A call on a form: its name, what it is given, and whether its slice is too short for the form.
pub struct OnForm<'a> {
    pub name: &'static str,
    pub given: &'a [u8],
    pub form: &'a [u8],
    pub short: bool,
}

impl OnForm<'_> {
    /// The ranks in the form's head, as far as there is one.
    fn own(&self) -> &[u8] {
        ranks(self.form).unwrap_or_default()
    }

    /// The refusal that the alphabet given and this form get, whatever is lent; 0 where none.
    fn refusal(&self, form: &[u8]) -> u8 {
        Idiomatic.read_rule(self.given, form, 0, &mut [0; 7])
    }

    /// The form that carries the given alphabet before the bytes from this place on.
    fn carrying_given(&self, place: usize) -> Vec<u8> {
        let head = self.form.get(..TERMINALS_AT).unwrap_or_default();
        let rules = self.form.get(place..).unwrap_or_default();
        [head, &[self.given.len() as u8], self.given, rules].concat()
    }

    /// Whether the form's rules are lawful when they are read against the alphabet given.
    fn fits_given(&self) -> bool {
        self.refusal(&self.carrying_given(end(self.form))) == 0
    }
}

impl Planted {
    /// The answer of a call on a form, which is made as is right, but maybe with another alphabet or
    /// another form than it was given.
    pub fn on_form(&self, on: &OnForm, mut call: impl FnMut(&[u8], &[u8]) -> u8) -> u8 {
        match call(on.given, on.form) {
            14..=16 if self.has(Fault::AlphabetsBeforeAutomaton) && on.refusal(on.form) == 28 => 28,
            18 => self.on_form_refused_by_18(on, call),
            28 if self.has(Fault::ShortBeforeAlphabets) && on.short => 19,
            28 if self.has(Fault::GivenAlphabetReadAgainst) && !on.fits_given() => 18,
            28 if self.has(Fault::CountsWrittenOnOther) => {
                call(on.own(), on.form);
                28
            }
            28 if self.sees_no_difference(on) => match call(on.own(), on.form) {
                // The automaton was lawful for the alphabet given, and is not for the form's.
                16 => 28,
                code => code,
            },
            code => code,
        }
    }

    /// Whether this engine takes the form's alphabet for the one given, though it is another.
    fn sees_no_difference(&self, on: &OnForm) -> bool {
        let (given, own) = (on.given, on.own());
        let mut common = given.iter().zip(own);
        let same = |(given, own): (&u8, &u8)| given == own;
        match self.fault {
            Fault::CommonPartCompared => common.all(same),
            Fault::LengthCompared => given.len() == own.len(),
            Fault::UsedRanksCompared => (0..own.len())
                .filter(|&terminal| uses(on.form, terminal as u8))
                .all(|terminal| given.get(terminal) == Some(&own[terminal])),
            Fault::LastRankNotCompared => {
                given.len() == own.len() && common.rev().skip(1).all(same)
            }
            Fault::RanksComparedInAnyOrder => sorted(given) == sorted(own),
            Fault::EvaluateComparesNot => on.name == "evaluate",
            Fault::SizeComparesNot => on.name == "size",
            Fault::LabelComparesNot => on.name == "label",
            Fault::UnfoldComparesNot => on.name == "unfold",
            Fault::ReadRuleComparesNot => on.name == "read_rule",
            _ => false,
        }
    }

    /// The answer of a call on a form that is not valid.
    fn on_form_refused_by_18(&self, on: &OnForm, mut call: impl FnMut(&[u8], &[u8]) -> u8) -> u8 {
        let count = on.form.get(TERMINALS_AT).copied().unwrap_or(1);
        match self.fault {
            Fault::AlphabetsBeforeForm if ranks(on.form).is_some_and(|own| own != on.given) => 28,
            Fault::AlphabetsBeforeRules
                if Head::read(on.form).is_some() && on.own() != on.given =>
            {
                28
            }
            Fault::GivenAlphabetReadAgainst if on.fits_given() => 28,
            Fault::HeadCountTold3 if !(1..=32).contains(&count) => 3,
            Fault::HeadRankTold4 if on.own().iter().any(|&rank| rank > 4) => 4,
            Fault::HeadOf33Taken if count == 33 && on.fits_given() => 28,
            Fault::OldFormatGuessed => {
                let guessed = on.carrying_given(TERMINALS_AT);
                if on.refusal(&guessed) == 0 { call(on.given, &guessed) } else { 18 }
            }
            _ => 18,
        }
    }

    /// Whether this engine has this fault, of asking for no room for the alphabet, and the slice is
    /// long enough without.
    pub fn asks_for_no_alphabet(&self, fault: Fault, sheet: &[u8], length: usize) -> bool {
        let rules = || Sheet::read(sheet).map_or(0, |sheet| sheet.rule_bound());
        self.has(fault) && length >= TERMINALS_AT + 12 * rules()
    }

    /// Spoils the head of a form that was made rightly in a slice that held these bytes, or the
    /// place of its rules.
    pub fn spoil_head(&self, held: &[u8], form: &mut [u8], written: &mut usize) {
        let rules = end(form);
        match self.fault {
            Fault::AlphabetLeftAsHeld => {
                form[TERMINALS_AT..rules].copy_from_slice(&held[TERMINALS_AT..rules]);
            }
            Fault::RulesWrittenOneOff if *written < form.len() => {
                form.copy_within(rules..*written, rules + 1);
                *written += 1;
            }
            _ => {}
        }
    }

    /// The code of a call that 28 refuses, where this engine first looks for 20 or 21: these are
    /// told of the same call with the form's own alphabet.
    pub fn before_28(&self, fault: Fault, form: &[u8], own_call: impl Fn(&[u8]) -> u8) -> u8 {
        let told = match fault {
            Fault::LongerBeforeAlphabets => 20,
            _ => 21,
        };
        let first = self.has(fault) && own_call(ranks(form).unwrap_or_default()) == told;
        if first { told } else { 28 }
    }
}

fn sorted(ranks: &[u8]) -> Vec<u8> {
    let mut sorted = ranks.to_vec();
    sorted.sort_unstable();
    sorted
}

/// The fields of a rule as they are when all rules are taken to begin one byte earlier.
pub fn fields_one_off(form: &[u8], number: usize) -> [u16; 7] {
    let mut form = form.to_vec();
    let rules = end(&form);
    form[rules - 1..].rotate_right(1);
    fields(&form, number)
}
