//! The faults of the sum by which making and marking ask for room: wrong sums, in each place where
//! they are asked for, and faults of the call that tells the room.

use crate::engine::{Fault, Planted, of_automaton};
use crate::marking::Call;
use compare::calls::{Engine, FixedCalls};
use compare::idiomatic::Idiomatic;
use compare::reference::head::{self, LONGEST_FORM, TERMINALS_AT, end, word};
use compare::reference::outline::{Outlines, Piece};
use compare::reference::sheet::Sheet;
use compare::reference::term::Term;

/// What is taken for the sum.
#[derive(Clone, Copy, Debug, PartialEq)]
pub enum Sum {
    /// That of what cleaning leaves, with the ranks that it leaves.
    OfCleaned,
    RanksAfterCleaning,
    DroppedNotCounted,
    OfRulesReached,
    CallOfRank0Takes3,
    CallOfRank0Adds1,
    CallOfRank0Adds253,
    CallsOf4n,
    ParametersCounted,
    TerminalsCountedOnce,
    TerminalsByRank,
    SixteenForNode,
    RulesMade,
}

pub const SUMS: [Sum; 13] = [
    Sum::OfCleaned,
    Sum::RanksAfterCleaning,
    Sum::DroppedNotCounted,
    Sum::OfRulesReached,
    Sum::CallOfRank0Takes3,
    Sum::CallOfRank0Adds1,
    Sum::CallOfRank0Adds253,
    Sum::CallsOf4n,
    Sum::ParametersCounted,
    Sum::TerminalsCountedOnce,
    Sum::TerminalsByRank,
    Sum::SixteenForNode,
    Sum::RulesMade,
];

/// Where the sum is asked for.
#[derive(Clone, Copy, Debug, PartialEq)]
pub enum Asked {
    Room,
    Making,
    MarkingBytes,
    MarkingNumbers,
}

impl Sum {
    /// The sum of a lawful sheet.
    fn of(self, bytes: &[u8]) -> usize {
        let sheet = lawful(bytes);
        match self {
            Sum::SixteenForNode => 16 * sheet.node_count(),
            Sum::RulesMade => (made(bytes).len() - head::length(sheet.alphabet_body.len())) / 12,
            _ => self.of_nodes(&sheet),
        }
    }

    /// The bytes of the head and of so many rules.
    fn bytes(self, sheet: &[u8]) -> usize {
        let head = head::length(lawful(sheet).alphabet_body.len());
        head.wrapping_add(self.of(sheet).wrapping_mul(12))
    }

    /// The sum over the nodes of the rules, which a number below 0 takes round.
    fn of_nodes(self, sheet: &Sheet) -> usize {
        let (outlines, reached) = (Outlines::of(&sheet.rules), sheet.called_from_start());
        let mut sum = 0_usize;
        for (rule, reached) in sheet.rules.iter().zip(reached) {
            for node in rule.right.nodes() {
                let counted = match self {
                    Sum::OfCleaned | Sum::DroppedNotCounted => outlines.has_node(&rule.right, node),
                    Sum::OfRulesReached => reached,
                    _ => true,
                };
                let share = if counted { self.share(&outlines, node) } else { 0 };
                sum = sum.wrapping_add(share);
            }
        }
        sum
    }

    fn share(self, outlines: &Outlines, node: &Term) -> usize {
        match (self, node) {
            (Sum::TerminalsCountedOnce, Term::Terminal(..)) => 1,
            (Sum::TerminalsByRank, Term::Terminal(_, children)) => children.len(),
            (_, Term::Terminal(..)) => 2,
            (Sum::ParametersCounted, Term::Parameter(_)) => 1,
            (_, Term::Parameter(_)) => 0,
            (Sum::OfCleaned, Term::Call(rule, _))
                if matches!(outlines.of_rule(*rule), [Piece::Parameter(_)]) =>
            {
                0
            }
            (Sum::OfCleaned | Sum::RanksAfterCleaning, Term::Call(rule, arguments)) => {
                let places = 0..arguments.len();
                self.call(places.filter(|&place| outlines.has_parameter(*rule, place)).count())
            }
            (_, Term::Call(_, arguments)) => self.call(arguments.len()),
        }
    }

    /// What a call of a rule of this rank counts.
    fn call(self, rank: usize) -> usize {
        match (self, rank) {
            (Sum::CallsOf4n, _) => 4 * rank,
            (Sum::CallOfRank0Takes3, 0) => 0_usize.wrapping_sub(3),
            (Sum::CallOfRank0Adds1, 0) => 1,
            (Sum::CallOfRank0Adds253, 0) => 253,
            (_, 0) => 0,
            _ => 4 * rank - 3,
        }
    }
}

fn lawful(sheet: &[u8]) -> Sheet {
    Sheet::read(sheet).expect("a lawful sheet")
}

/// The form of a lawful sheet.
fn made(sheet: &[u8]) -> Vec<u8> {
    let (mut form, mut written) = (vec![0; LONGEST_FORM], 0);
    assert_eq!(Idiomatic.make_form(sheet, &mut form, &mut written), 0);
    form.truncate(written);
    form
}

/// Puts as many cells at the slice's front as fit.
fn put<T: Copy>(cells: &[T], slice: &mut [T]) {
    slice.iter_mut().zip(cells).for_each(|(place, cell)| *place = *cell);
}

/// Makes the form where the slice is as long as this sum asks for.
pub fn made_by(sum: Sum, sheet: &[u8], form: &mut [u8], written: &mut usize) -> u8 {
    let code = Idiomatic.make_form(sheet, &mut [0; LONGEST_FORM], &mut 0);
    if code != 0 {
        return code;
    }
    if form.len() < sum.bytes(sheet) {
        return 17;
    }
    let made = made(sheet);
    put(&made, form);
    *written = made.len();
    0
}

/// Marks where one of the slices is as long as this sum asks for, and the other as is right.
pub fn marked_by(sum: Sum, asked: Asked, call: Call) -> u8 {
    let Call { sheet, candidate, .. } = call;
    let (mut form, mut relations) = (vec![0; LONGEST_FORM], vec![0; 2048]);
    let (mut tally, mut verdict, mut mask) = (call.tally.to_vec(), 0, 0);
    let code = Idiomatic.mark(
        sheet,
        &mut form,
        &mut relations,
        candidate,
        &mut tally,
        &mut verdict,
        &mut mask,
    );
    if code == 0 {
        let right = lawful(sheet);
        let (bytes, numbers) = match asked {
            Asked::MarkingBytes => (sum.bytes(sheet), right.relations_need()),
            _ => (right.form_need(), sum.of(sheet)),
        };
        if call.form.len() < bytes {
            return 17;
        }
        if call.relations.len() < numbers {
            return 19;
        }
        let rules = usize::from(word(&form, 0));
        put(&form[..end(&form) + 12 * rules], call.form);
        put(&relations[..rules], call.relations);
        (*call.verdict, *call.mask) = (verdict, mask);
    }
    call.tally.copy_from_slice(&tally);
    code
}

impl Planted {
    /// Whether this engine looks at the numbers before the bytes, and there are too few of them.
    pub fn asks_for_numbers_first(&self, sheet: &[u8], length: usize) -> bool {
        self.has(Fault::NumbersBeforeBytes) && length < lawful(sheet).relations_need()
    }

    pub fn room_told(&self, sheet: &[u8], form_bytes: &mut usize, numbers: &mut usize) -> u8 {
        let (mut bytes, mut count) = (0, 0);
        let code = Idiomatic.room(sheet, &mut bytes, &mut count);
        if code != 0 {
            return self.room_refused(sheet, code, form_bytes, numbers);
        }
        (*form_bytes, *numbers) = match self.fault {
            Fault::WrongSum(sum, Asked::Room) => (sum.bytes(sheet), sum.of(sheet)),
            Fault::RoomExchanged => (count, bytes),
            Fault::RoomForgetsAlphabet => (head::length(0) + 12 * count, count),
            Fault::RoomForgetsTerminalCount => (bytes - (head::length(0) - TERMINALS_AT), count),
            Fault::RoomTellsRulesForBytes => (count, count),
            Fault::RoomTellsNumbersInBytes => (bytes, 8 * count),
            Fault::RoomAddsToWhatWasHeld => (bytes, numbers.wrapping_add(count)),
            _ => (bytes, count),
        };
        0
    }

    /// The answer of a refused sheet.
    fn room_refused(
        &self,
        sheet: &[u8],
        code: u8,
        form_bytes: &mut usize,
        numbers: &mut usize,
    ) -> u8 {
        match (self.fault, code) {
            (Fault::RoomTellsBytesOnRefusal, _) => *form_bytes = 0,
            (Fault::RoomTellsNumbersOnRefusal, _) => *numbers = 0,
            (Fault::RoomReadsNoAutomaton, 14..=16) => return 0,
            (Fault::RoomReadsAutomatonFirst, 5..=13) => {
                return of_automaton(sheet).unwrap_or(code);
            }
            _ => {}
        }
        code
    }
}
