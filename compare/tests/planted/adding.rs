//! The faults of adding a transition: in which entries are redone, in what they are redone from, in
//! what is kept, in the mask and in the refusals.

use compare::calls::FixedCalls;
use compare::idiomatic::Idiomatic;
use compare::limits::MOST_TRANSITIONS;
use compare::reference::adding::{self, entry};
use compare::reference::alphabet::Alphabet;
use compare::reference::automaton::{self, Automaton};
use compare::reference::form::{Form, FormRule};
use compare::reference::head::{ranks, rules_behind};

#[derive(Clone, Copy, Debug, PartialEq)]
pub enum Adding {
    OrIntoHeld,
    KeptWhereHeldHasAll,
    EverythingRedone,
    NothingRedone,
    DirectOnly,
    OneCallOnly,
    OnlyReached,
    OpenNodesForgotten,
    FirstCallOnly,
    LastCallOnly,
    RepeatLeavesAll,
    FlagsModulo256,
    LastOfMostForgotten,
    OnlyStates,
    HighBitsRead,
    FromNumbersAsLent,
    FromLastToFirst,
    OldAutomaton,
    NewTransitionOnly,
    WrongComposition,
    MaskAsLent,
    MaskOfLastRule,
    LaterNumberChanged,
    LaterNumbersCleared,
    TransitionBefore14,
    TransitionBefore15,
    TransitionBefore16,
    FullAfter15,
    FullAfter16,
    FullAfterForm,
    FullTaken,
    FullTooSoon,
    FormBefore29,
    AlphabetsBefore29,
    ShortBefore29,
    AlphabetsBeforeForm,
    AlphabetsNotCompared,
    ShortBeforeForm,
    ShortBeforeAlphabets,
    EightStatesChecked,
    FiveBytesTaken,
    LaterBytesPassedOver,
    UnusedNotChecked,
    OneNumberLessTaken,
    ClearedOn29,
    ClearedOnShort,
    MaskToldOnRefusal,
}

/// Each fault, and words of the difference that tells of it.
pub const ADDINGS: [(Adding, &str); 47] = [
    (Adding::OrIntoHeld, "numbers: expected"),
    (Adding::KeptWhereHeldHasAll, "numbers: expected"),
    (Adding::EverythingRedone, "numbers: expected"),
    (Adding::NothingRedone, "numbers: expected"),
    (Adding::DirectOnly, "numbers: expected"),
    (Adding::OneCallOnly, "numbers: expected"),
    (Adding::OnlyReached, "numbers: expected"),
    (Adding::OpenNodesForgotten, "numbers: expected"),
    (Adding::FirstCallOnly, "numbers: expected"),
    (Adding::LastCallOnly, "numbers: expected"),
    (Adding::RepeatLeavesAll, "numbers: expected"),
    (Adding::FlagsModulo256, "numbers: expected"),
    (Adding::LastOfMostForgotten, "numbers: expected"),
    (Adding::OnlyStates, "numbers: expected"),
    (Adding::HighBitsRead, "numbers: expected"),
    (Adding::FromNumbersAsLent, "numbers: expected"),
    (Adding::FromLastToFirst, "numbers: expected"),
    (Adding::OldAutomaton, "numbers: expected"),
    (Adding::NewTransitionOnly, "numbers: expected"),
    (Adding::WrongComposition, "numbers: expected"),
    (Adding::MaskAsLent, "mask or terminal: expected"),
    (Adding::MaskOfLastRule, "mask or terminal: expected"),
    (Adding::LaterNumberChanged, "numbers: expected"),
    (Adding::LaterNumbersCleared, "numbers: expected"),
    (Adding::TransitionBefore14, "code: expected 14, found 29"),
    (Adding::TransitionBefore15, "code: expected 15, found 29"),
    (Adding::TransitionBefore16, "code: expected 16, found 29"),
    (Adding::FullAfter15, "code: expected 14, found 15"),
    (Adding::FullAfter16, "code: expected 14, found 16"),
    (Adding::FullAfterForm, "code: expected 14, found 18"),
    (Adding::FullTaken, "code: expected 14, found"),
    (Adding::FullTooSoon, "code: expected 0, found 14"),
    (Adding::FormBefore29, "code: expected 29, found 18"),
    (Adding::AlphabetsBefore29, "code: expected 29, found 28"),
    (Adding::ShortBefore29, "code: expected 29, found 19"),
    (Adding::AlphabetsBeforeForm, "code: expected 18, found 28"),
    (Adding::AlphabetsNotCompared, "code: expected 28, found"),
    (Adding::ShortBeforeForm, "code: expected 18, found 19"),
    (Adding::ShortBeforeAlphabets, "code: expected 28, found 19"),
    (Adding::EightStatesChecked, "code: expected 29, found"),
    (Adding::FiveBytesTaken, "code: expected 29, found"),
    (Adding::LaterBytesPassedOver, "code: expected 29, found"),
    (Adding::UnusedNotChecked, "code: expected 29, found"),
    (Adding::OneNumberLessTaken, "code: expected 19, found 0"),
    (Adding::ClearedOn29, "numbers: expected"),
    (Adding::ClearedOnShort, "numbers: expected"),
    (Adding::MaskToldOnRefusal, "mask or terminal: expected"),
];

/// A call: what it reads and what it is lent.
pub struct Call<'a> {
    pub alphabet: &'a [u8],
    pub form: &'a [u8],
    pub automaton: &'a [u8],
    pub transition: &'a [u8],
    pub relations: &'a mut [u64],
    pub mask: &'a mut u8,
}

impl Call<'_> {
    /// Makes the call as is right.
    pub fn right(mut self) -> u8 {
        self.with(self.automaton, self.transition)
    }

    /// Makes the call as is right, but with this automaton and this transition.
    fn with(&mut self, automaton: &[u8], transition: &[u8]) -> u8 {
        let (alphabet, form) = (self.alphabet, self.form);
        Idiomatic.add_transition(alphabet, form, automaton, transition, self.relations, self.mask)
    }

    /// Makes the call with the alphabet that the form carries.
    fn with_own_alphabet(&mut self) -> u8 {
        self.alphabet = ranks(self.form).unwrap_or_default();
        self.with(self.automaton, self.transition)
    }

    /// The refusal of the alphabet and the form, whatever else is given; 0 where none.
    fn of_form(&self) -> u8 {
        Idiomatic.read_rule(self.alphabet, self.form, 0, &mut [0; 7])
    }

    /// The refusal of the automaton without the new transition; 0 where none.
    fn of_automaton(&self) -> u8 {
        let walked = Idiomatic.walk(self.alphabet, self.automaton, &[0], &mut [], &mut 0);
        if (14..=16).contains(&walked) { walked } else { 0 }
    }

    /// Whether the new transition is refused, with the old automaton's states alone.
    fn transition_is_refused(&self) -> bool {
        let (alphabet, form, states) = (self.alphabet, self.form, &self.automaton[..2]);
        Idiomatic.add_transition(alphabet, form, states, self.transition, &mut [], &mut 0) == 29
    }

    fn is_full(&self) -> bool {
        self.automaton.len() == 2 + 6 * MOST_TRANSITIONS
    }

    fn is_short(&self) -> bool {
        self.relations.len() < rules_behind(self.form)
    }
}

impl Adding {
    /// The call with this fault.
    pub fn put(self, mut call: Call) -> u8 {
        let held = call.relations.to_vec();
        match call.with(call.automaton, call.transition) {
            0 => self.answered(&mut call, &held),
            14 => self.refused_by_14(&mut call),
            29 => self.refused_by_29(&mut call),
            code => self.refused(code, &mut call),
        }
    }

    /// Spoils what was answered rightly, with a slice that held these numbers.
    fn answered(self, call: &mut Call, held: &[u64]) -> u8 {
        let known = Known::of(self, call);
        let count = known.form.rules.len();
        match self {
            Adding::FullTooSoon if known.automaton.transitions.len() == MOST_TRANSITIONS => {
                call.relations.copy_from_slice(held);
                return 14;
            }
            Adding::MaskAsLent => *call.mask = held[known.form.start] as u8,
            Adding::MaskOfLastRule => *call.mask = call.relations[count - 1] as u8,
            Adding::LaterNumberChanged => {
                call.relations[count..].iter_mut().take(1).for_each(|number| *number ^= 1);
            }
            Adding::LaterNumbersCleared => call.relations[count..].fill(0),
            _ => {
                call.relations.copy_from_slice(&self.redo(&known, held));
                *call.mask = call.relations[known.form.start] as u8;
            }
        }
        0
    }

    /// The answer where 14 is right: the automaton is full, or its length is wrong.
    fn refused_by_14(self, call: &mut Call) -> u8 {
        let (of_automaton, of_form) = (call.of_automaton(), call.of_form());
        match self {
            Adding::TransitionBefore14 if call.transition.len() != 6 => return 29,
            Adding::FullAfter15 if of_automaton == 15 => return 15,
            Adding::FullAfter16 if of_automaton == 16 => return 16,
            Adding::FullAfterForm if call.is_full() && of_automaton == 0 && of_form == 18 => {
                return 18;
            }
            Adding::FullTaken if call.is_full() && of_automaton == 0 && of_form == 0 => {
                return self.taken_though_full(call);
            }
            _ => {}
        }
        self.refused(14, call)
    }

    /// The answer of an engine that lets a full automaton have one transition more.
    fn taken_though_full(self, call: &mut Call) -> u8 {
        if call.transition_is_refused() {
            return 29;
        }
        if call.is_short() {
            return 19;
        }
        let known = Known::of(self, call);
        let numbers = self.redo(&known, call.relations);
        call.relations.copy_from_slice(&numbers);
        *call.mask = numbers[known.form.start] as u8;
        0
    }

    /// The answer where 29 is right.
    fn refused_by_29(self, call: &mut Call) -> u8 {
        let (automaton, transition) = (call.automaton, call.transition);
        match self {
            Adding::FormBefore29 if call.of_form() == 18 => return 18,
            Adding::AlphabetsBefore29 if call.of_form() == 28 => return 28,
            Adding::ShortBefore29 if call.is_short() => return 19,
            Adding::EightStatesChecked => {
                return call.with(&[&[8][..], &automaton[1..]].concat(), transition);
            }
            Adding::FiveBytesTaken if transition.len() == 5 => {
                return call.with(automaton, &[transition, &[0xFF]].concat());
            }
            Adding::LaterBytesPassedOver if transition.len() > 6 => {
                return call.with(automaton, &transition[..6]);
            }
            Adding::UnusedNotChecked if transition.len() == 6 => {
                let mut row = transition.to_vec();
                let rank = call.alphabet.get(usize::from(row[0])).copied().unwrap_or(4);
                row[2 + usize::from(rank)..].fill(0xFF);
                return call.with(automaton, &row);
            }
            Adding::ClearedOn29 => call.relations.fill(0),
            _ => {}
        }
        self.refused(29, call)
    }

    /// The answer where another refusal is right.
    fn refused(self, code: u8, call: &mut Call) -> u8 {
        let other_head = || ranks(call.form).is_some_and(|own| own != call.alphabet);
        match (self, code) {
            (Adding::TransitionBefore15, 15) if call.transition.len() != 6 => return 29,
            (Adding::TransitionBefore16, 16) if call.transition_is_refused() => return 29,
            (Adding::AlphabetsBeforeForm, 18) if other_head() => return 28,
            (Adding::AlphabetsNotCompared, 28) => return call.with_own_alphabet(),
            (Adding::ShortBeforeForm, 18) if call.is_short() => return 19,
            (Adding::ShortBeforeAlphabets, 28) if call.is_short() => return 19,
            (Adding::OneNumberLessTaken, 19)
                if call.relations.len() + 1 == rules_behind(call.form) =>
            {
                return 0;
            }
            (Adding::ClearedOnShort, 19) => call.relations.fill(0),
            (Adding::MaskToldOnRefusal, _) => *call.mask = 0,
            _ => {}
        }
        code
    }

    /// The numbers that are left of those held.
    fn redo(self, known: &Known, held: &[u64]) -> Vec<u64> {
        let redone = self.redone(known);
        let as_read = |(number, &held): (usize, &u64)| self.as_read(known, number, held);
        let mut below: Vec<u64> = held.iter().enumerate().map(as_read).collect();
        let mut numbers = held.to_vec();
        let mut order: Vec<usize> = (0..known.form.rules.len()).collect();
        if self == Adding::FromLastToFirst {
            order.reverse();
        }
        for number in order.into_iter().filter(|&number| redone[number]) {
            let redone = entry(&known.automaton, &self.rule(known, number), &below);
            numbers[number] = match self {
                Adding::OrIntoHeld => held[number] | redone,
                Adding::KeptWhereHeldHasAll if redone & !held[number] == 0 => held[number],
                _ => redone,
            };
            if self != Adding::FromNumbersAsLent {
                below[number] = self.as_read(known, number, numbers[number]);
            }
        }
        numbers
    }

    /// Of each rule, whether this engine redoes its entry.
    fn redone(self, known: &Known) -> Vec<bool> {
        let right = adding::dependent(&known.form, known.terminal);
        let named = |number: usize| known.has_terminal(number);
        let numbers = 0..right.len();
        match self {
            Adding::EverythingRedone => vec![true; right.len()],
            Adding::NothingRedone => vec![false; right.len()],
            Adding::RepeatLeavesAll if known.is_repeat => vec![false; right.len()],
            Adding::DirectOnly => numbers.map(named).collect(),
            Adding::OneCallOnly => {
                let called = |number: usize| known.form.rules[number].calls();
                numbers.map(|it| named(it) || called(it).into_iter().any(named)).collect()
            }
            Adding::OnlyReached => {
                right.iter().zip(known.form.reached()).map(|(it, reached)| *it && reached).collect()
            }
            Adding::LastOfMostForgotten => numbers.map(|it| right[it] && it < 2047).collect(),
            Adding::OpenNodesForgotten
            | Adding::FirstCallOnly
            | Adding::LastCallOnly
            | Adding::FlagsModulo256 => self.dependent(known),
            _ => right,
        }
    }

    /// Of each rule, whether it depends on the terminal where this engine forgets some rules that
    /// have it, some calls, or the flags of rules far below.
    fn dependent(self, known: &Known) -> Vec<bool> {
        let mut dependent: Vec<bool> = Vec::new();
        for (number, rule) in known.form.rules.iter().enumerate() {
            let mut calls = rule.calls();
            match self {
                Adding::FirstCallOnly => calls.truncate(1),
                Adding::LastCallOnly => drop(calls.drain(..calls.len().saturating_sub(1))),
                _ => {}
            }
            let forgotten = self == Adding::OpenNodesForgotten && rule.rank() == 1;
            let named = known.has_terminal(number) && !forgotten;
            let flag = |called: usize| match self {
                Adding::FlagsModulo256 => dependent[called + (number - 1 - called) / 256 * 256],
                _ => dependent[called],
            };
            let is_dependent = named || calls.into_iter().any(flag);
            dependent.push(is_dependent);
        }
        dependent
    }

    /// A number of the slice as this engine reads it where it redoes entries above.
    fn as_read(self, known: &Known, number: usize, held: u64) -> u64 {
        let rank = known.form.rules.get(number).map_or(1, FormRule::rank);
        match self {
            Adding::OnlyStates => {
                let states = 0xFF >> (8 - known.automaton.states);
                let lanes = (0..known.automaton.states).map(|entered| states << (8 * entered));
                held & lanes.sum::<u64>()
            }
            Adding::HighBitsRead if rank == 0 => {
                (0..8).fold(0, |all, lane| all | held >> (8 * lane) & 0xFF)
            }
            _ => held,
        }
    }

    /// The rule as this engine takes it.
    fn rule(self, known: &Known, number: usize) -> FormRule {
        match (self, known.form.rules[number].clone()) {
            (Adding::WrongComposition, FormRule::Composed { outer, inner }) => {
                FormRule::Composed { outer: inner, inner: outer }
            }
            (_, rule) => rule,
        }
    }
}

/// What a call was given that has nothing wrong, save that the automaton may be full.
struct Known {
    form: Form,
    /// The automaton that entries are redone over.
    automaton: Automaton,
    terminal: u8,
    /// Whether the old automaton has the new transition.
    is_repeat: bool,
}

impl Known {
    fn of(adding: Adding, call: &Call) -> Known {
        let alphabet = Alphabet::read(call.alphabet).expect("a lawful alphabet");
        let mut automaton = Automaton::read(&alphabet, call.automaton).expect("a lawful automaton");
        let new = automaton::transition(&alphabet, automaton.states, call.transition);
        if adding == Adding::NewTransitionOnly {
            automaton.transitions.clear();
        }
        if adding != Adding::OldAutomaton {
            automaton.transitions.push(new.expect("a lawful transition"));
        }
        let form = Form::read(call.form).expect("a valid form");
        let is_repeat = call.automaton[2..].chunks(6).any(|row| row == call.transition);
        Known { form, automaton, terminal: call.transition[0], is_repeat }
    }

    /// Whether the rule is of kind 0 or 1 with the new transition's terminal.
    fn has_terminal(&self, number: usize) -> bool {
        let rule = &self.form.rules[number];
        matches!(rule, FormRule::Node { terminal, .. } if *terminal == self.terminal)
    }
}
