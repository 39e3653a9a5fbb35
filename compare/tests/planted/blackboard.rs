//! The faults of the blackboard method: in the tables, in what is kept of the slice, in the mask and
//! in the refusals.

use compare::calls::FixedCalls;
use compare::idiomatic::Idiomatic;
use compare::reference::automaton::{Automaton, has};
use compare::reference::blackboard::TABLE;
use compare::reference::presence::Presence;
use compare::reference::rules::Rule;
use compare::reference::sheet::Sheet;
use compare::reference::term::Term;

#[derive(Clone, Copy, Debug, PartialEq)]
pub enum Board {
    LoneIsIdentityOnEight,
    RunOfDroppedAsked,
    AbsentAtState0,
    AbsentThroughCalleesAtState0,
    AbsentAtNoState,
    RelationsPerParameter,
    ParametersReversed,
    ParametersByAppearance,
    RootForParameter,
    OtherParametersFree,
    OnlyCalledRules,
    OldBitsLeft,
    ZerosNotWritten,
    OneByteMore,
    RestCleared,
    MaskConstant,
    MaskOfFirstRule,
    MaskOfAllRules,
    ShortBeforeSheet,
    CutAutomatonTaken,
    OneByteLessTaken,
    OneByteMoreAsked,
    ClearedOnShort,
    MaskToldOnRefusal,
}

/// Each fault, and words of the difference that tells of it.
pub const BOARDS: [(Board, &str); 24] = [
    (Board::LoneIsIdentityOnEight, "bytes: expected"),
    (Board::RunOfDroppedAsked, "bytes: expected"),
    (Board::AbsentAtState0, "bytes: expected"),
    (Board::AbsentThroughCalleesAtState0, "bytes: expected"),
    (Board::AbsentAtNoState, "bytes: expected"),
    (Board::RelationsPerParameter, "bytes: expected"),
    (Board::ParametersReversed, "bytes: expected"),
    (Board::ParametersByAppearance, "bytes: expected"),
    (Board::RootForParameter, "bytes: expected"),
    (Board::OtherParametersFree, "bytes: expected"),
    (Board::OnlyCalledRules, "bytes: expected"),
    (Board::OldBitsLeft, "bytes: expected"),
    (Board::ZerosNotWritten, "bytes: expected"),
    (Board::OneByteMore, "bytes: expected"),
    (Board::RestCleared, "bytes: expected"),
    (Board::MaskConstant, "mask or terminal: expected"),
    (Board::MaskOfFirstRule, "mask or terminal: expected"),
    (Board::MaskOfAllRules, "mask or terminal: expected"),
    (Board::ShortBeforeSheet, "found 19"),
    (Board::CutAutomatonTaken, "code: expected 14, found 0"),
    (Board::OneByteLessTaken, "code: expected 19, found 0"),
    (Board::OneByteMoreAsked, "code: expected 0, found 19"),
    (Board::ClearedOnShort, "bytes: expected"),
    (Board::MaskToldOnRefusal, "mask or terminal: expected"),
];

impl Board {
    /// The call with this fault.
    pub fn put(self, sheet: &[u8], table: &mut [u8], mask: &mut u8) -> u8 {
        let held = table.to_vec();
        match Idiomatic.blackboard(sheet, table, mask) {
            0 => self.answered(&lawful(sheet), &held, table, mask),
            19 => self.short(&lawful(sheet), sheet, table, mask),
            code => self.refused(code, table.len(), mask),
        }
    }

    /// Spoils what was written rightly in a slice that held these bytes.
    fn answered(self, sheet: &Sheet, held: &[u8], table: &mut [u8], mask: &mut u8) -> u8 {
        let need = TABLE * sheet.rules.len();
        let (tables, rest) = table.split_at_mut(need);
        match self {
            Board::OneByteMoreAsked if rest.is_empty() => {
                tables.copy_from_slice(held);
                return 19;
            }
            Board::OldBitsLeft => tables.iter_mut().zip(held).for_each(|(byte, old)| *byte |= old),
            Board::ZerosNotWritten => tables
                .iter_mut()
                .zip(held)
                .filter(|(byte, _)| **byte == 0)
                .for_each(|(byte, old)| *byte = *old),
            Board::OneByteMore => rest.iter_mut().take(1).for_each(|byte| *byte ^= 1),
            Board::RestCleared => rest.fill(0),
            Board::MaskConstant => *mask = 1,
            Board::MaskOfFirstRule => *mask = tables[0],
            Board::MaskOfAllRules => {
                *mask = tables.chunks(TABLE).fold(0, |all, table| all | table[0]);
            }
            _ => self.spoil_tables(sheet, tables),
        }
        if self == Board::RunOfDroppedAsked {
            *mask = tables[need - TABLE];
        }
        0
    }

    /// The answer where the slice is too short for the tables of a lawful sheet.
    fn short(self, read: &Sheet, sheet: &[u8], table: &mut [u8], mask: &mut u8) -> u8 {
        let need = TABLE * read.rules.len();
        match self {
            Board::OneByteLessTaken if table.len() + 1 == need => {
                let mut longer = vec![0; need];
                Idiomatic.blackboard(sheet, &mut longer, mask);
                table.copy_from_slice(&longer[..need - 1]);
                return 0;
            }
            Board::ClearedOnShort => table.fill(0),
            Board::MaskToldOnRefusal => *mask = 0,
            _ => {}
        }
        19
    }

    /// The answer of a refused sheet.
    fn refused(self, code: u8, length: usize, mask: &mut u8) -> u8 {
        match self {
            Board::ShortBeforeSheet if length < TABLE => return 19,
            Board::CutAutomatonTaken if code == 14 => return 0,
            Board::MaskToldOnRefusal => *mask = 0,
            _ => {}
        }
        code
    }

    /// Makes each rule's table anew from the right one.
    fn spoil_tables(self, sheet: &Sheet, tables: &mut [u8]) {
        if self == Board::RunOfDroppedAsked {
            return ask_of_dropped(sheet, tables);
        }
        let (presence, called) = (Presence::of(&sheet.rules), sheet.called_from_start());
        for (number, table) in tables.chunks_mut(TABLE).enumerate() {
            let wrong = Wrong::of(sheet, &presence, number, table);
            match self {
                Board::OnlyCalledRules if !called[number] => table.fill(0),
                Board::RelationsPerParameter => table.copy_from_slice(&wrong.per_parameter()),
                _ => (0..TABLE).for_each(|place| table[place] = wrong.byte(self, place)),
            }
        }
    }
}

/// A rule's table to be spoiled.
struct Wrong<'s> {
    rule: &'s Rule,
    states: u8,
    /// The parameters that the right side has, in the order they appear.
    appearance: Vec<usize>,
    /// Those that the rule's derived tree has not.
    absent: Vec<usize>,
    right: Vec<u8>,
}

impl Wrong<'_> {
    fn of<'s>(sheet: &'s Sheet, presence: &Presence, number: usize, table: &[u8]) -> Wrong<'s> {
        let rule = &sheet.rules[number];
        let parameter = |node: &Term| match node {
            Term::Parameter(it) => Some(*it),
            _ => None,
        };
        Wrong {
            rule,
            states: sheet.automaton.states,
            appearance: rule.right.nodes().into_iter().filter_map(parameter).collect(),
            absent: (0..rule.rank).filter(|&it| !presence.is_present(number, it)).collect(),
            right: table.to_vec(),
        }
    }

    /// The byte that the fault puts at a place.
    fn byte(&self, board: Board, place: usize) -> u8 {
        let (right, digits, rank) = (self.right[place], digits(place), self.rule.rank);
        let (own, others) = digits.split_at(rank);
        match board {
            Board::LoneIsIdentityOnEight => match self.rule.right {
                Term::Parameter(it) if others.iter().all(|&it| it == 0) => 1 << own[it],
                _ => right,
            },
            Board::AbsentAtState0 if self.absent.iter().any(|&it| own[it] > 0) => 0,
            Board::AbsentThroughCalleesAtState0 if self.absent_though_written(own) => 0,
            Board::AbsentAtNoState if !self.absent.is_empty() => 0,
            Board::ParametersReversed => {
                let reversed: Vec<u8> = own.iter().rev().chain(others).copied().collect();
                self.right[place_of(&reversed)]
            }
            Board::ParametersByAppearance if self.appearance.len() == rank => {
                let mut moved = digits;
                for (from, to) in self.appearance.iter().enumerate() {
                    moved[*to] = digits[from];
                }
                self.right[place_of(&moved)]
            }
            Board::RootForParameter if rank == 1 && place < 8 => {
                let roots = (0..8).filter(|&root| has(self.right[root], place as u8));
                roots.fold(0, |set, root| set | 1 << root)
            }
            Board::OtherParametersFree if others.iter().all(|&it| it < self.states) => {
                self.right[place_of(own)]
            }
            _ => right,
        }
    }

    /// Whether a parameter that is written and absent is entered in a state other than 0.
    fn absent_though_written(&self, own: &[u8]) -> bool {
        self.absent.iter().any(|it| self.appearance.contains(it) && own[*it] > 0)
    }

    /// The table of the relations between the root and each parameter by itself.
    fn per_parameter(&self) -> Vec<u8> {
        let rank = self.rule.rank;
        let mut relations = [[0; 8]; 4];
        for (place, set) in self.right.iter().enumerate() {
            for (relation, state) in relations.iter_mut().zip(digits(place)).take(rank) {
                relation[usize::from(state)] |= set;
            }
        }
        let byte = |place: usize| {
            let digits = digits(place);
            let sets = relations.iter().zip(digits).map(|(it, state)| it[usize::from(state)]);
            sets.take(rank).fold(0xFF, |all, set| all & set)
        };
        let is_choice = |place: usize| place < 8_usize.pow(rank as u32);
        let spoil =
            |place| if is_choice(place) && rank > 0 { byte(place) } else { self.right[place] };
        (0..TABLE).map(spoil).collect()
    }
}

/// Makes all tables anew, with a run asked of every argument.
fn ask_of_dropped(sheet: &Sheet, tables: &mut [u8]) {
    for (number, rule) in sheet.rules.iter().enumerate() {
        let (lower, behind) = tables.split_at_mut(TABLE * number);
        for place in places(&vec![0xFF >> (8 - sheet.automaton.states); rule.rank]) {
            behind[place] = asked(&sheet.automaton, lower, &rule.right, digits(place));
        }
    }
}

/// The root states of a term whose every argument is asked for a run.
fn asked(automaton: &Automaton, tables: &[u8], term: &Term, entered: [u8; 4]) -> u8 {
    let of_child = |child: &Term| asked(automaton, tables, child, entered);
    let sets: Vec<u8> = term.children().iter().map(of_child).collect();
    match term {
        Term::Parameter(parameter) => 1 << entered[*parameter],
        Term::Terminal(terminal, _) => automaton.step(*terminal, &sets),
        Term::Call(rule, _) => {
            places(&sets).into_iter().fold(0, |all, place| all | tables[TABLE * rule + place])
        }
    }
}

/// The places for the choices of states from these sets.
fn places(sets: &[u8]) -> Vec<usize> {
    let Some((first, others)) = sets.split_first() else { return vec![0] };
    let states = (0..8).filter(|&state| has(*first, state));
    let with = |state: u8| places(others).into_iter().map(move |it| 8 * it + usize::from(state));
    states.flat_map(with).collect()
}

/// The states at the four parameters that a place stands for.
fn digits(place: usize) -> [u8; 4] {
    [0, 1, 2, 3].map(|digit| (place >> (3 * digit)) as u8 & 7)
}

/// The place that these states stand for.
fn place_of(digits: &[u8]) -> usize {
    digits.iter().rev().fold(0, |place, &digit| 8 * place + usize::from(digit))
}

fn lawful(sheet: &[u8]) -> Sheet {
    Sheet::read(sheet).expect("a lawful sheet")
}
