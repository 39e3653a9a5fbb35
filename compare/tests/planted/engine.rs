//! An engine with one fault.

use crate::adding::{self, Adding};
use crate::alphabets::{OnForm, fields_one_off};
use crate::blackboard::Board;
use crate::marking::Call;
use crate::practice::Practice;
use crate::sums::{Asked, Sum, made_by};
use compare::calls::{Engine, FixedCalls};
use compare::idiomatic::Idiomatic;
use compare::reference::head::{LONGEST_FORM, end, rules_behind};
use std::cell::RefCell;

#[derive(Clone, Copy, Debug, PartialEq)]
pub enum Fault {
    OldForm,
    ConstantForm,
    FormWritesPast,
    FormFollowsOldBytes,
    FormTooLarge,
    FormAsksOneMore,
    ParametersByAppearance,
    AutomatonBeforeRules,
    RanksBeforeNodes,
    ShortBeforeSheet,
    ConstantMask,
    WrongComposition,
    ComposedBySum,
    ComposedByExclusiveOr,
    AppliedBySum,
    AppliedByExclusiveOr,
    RelationsPastCleared,
    FormBeforeAutomaton,
    CountsWrittenOnLonger,
    LongerSaidOfWhatFits,
    OverTooSoon,
    LastPositionRefused,
    TerminalWrittenOnRefusal,
    RuleReadPastEnd,
    WalkWritesRootOnly,
    WalkTakesEmpty,
    WrapChecksAutomatonFirst,
    RefuseAll,
    DeclineAll,
    TallyOnce,
    TurnedAwayNotCounted,
    ShortCounted,
    FullLooksAtAcceptedOnly,
    FullLooksAtMovedOnly,
    FullLooksAtAll,
    FullAfterSheet,
    RelationsForgotten,
    CandidateModulo16,
    CandidateModulo256,
    CandidateOfFourBytes,
    CandidateAfterSheet,
    NoCandidateCounted,
    NeighbourMoved,
    TallyOf47Taken,
    ShortTallyAfterCandidate,
    CountsPastWritten,
    ParityOfX,
    DrawBeforeStep,
    ProductLosesHighBit,
    HighHalfNotMultiplied,
    ProductStopsAtTop,
    SumStopsAtTop,
    InnerDrawnFirst,
    InnerAlwaysDrawn,
    NoDrawBelowOne,
    RemainderByM,
    LeafBeforeCall,
    StartCallsRuleBefore,
    MOf0Taken,
    MOf20Refused,
    MOf21Taken,
    MModulo256,
    MOfFourBytes,
    AutomatonBeforeM,
    ShortBeforeM,
    ShortBeforeAutomaton,
    OtherAlphabetChecked,
    SheetClearedFirst,
    ShortSheetBegun,
    LengthToldOnShort,
    SheetWritesPast,
    SheetFollowsOldBytes,
    RunOfDroppedAsked,
    PresentAsWritten,
    RuleForDropped,
    RenumberedByAppearance,
    FirstArgumentsKept,
    RepeatedAfterCleaning,
    DroppedNamesNotChecked,
    DroppedTreesNotChecked,
    DroppedNodesNotCounted,
    LoneStillRefused,
    LoneOfRank1Only,
    LeftOutStillRefused,
    AlphabetNotInNeed,
    AlphabetNotInMarkingNeed,
    AlphabetLeftAsHeld,
    RulesWrittenOneOff,
    RulesReadOneOff,
    GivenAlphabetReadAgainst,
    AlphabetsBeforeForm,
    AlphabetsBeforeRules,
    CommonPartCompared,
    LengthCompared,
    UsedRanksCompared,
    RanksComparedInAnyOrder,
    LastRankNotCompared,
    EvaluateComparesNot,
    SizeComparesNot,
    LabelComparesNot,
    UnfoldComparesNot,
    ReadRuleComparesNot,
    AlphabetsBeforeAutomaton,
    ShortBeforeAlphabets,
    LongerBeforeAlphabets,
    PositionBeforeAlphabets,
    NumberBeforeAlphabets,
    CountsWrittenOnOther,
    HeadCountTold3,
    HeadRankTold4,
    HeadOf33Taken,
    OldFormatGuessed,
    WrongSum(Sum, Asked),
    NumbersBeforeBytes,
    RoomExchanged,
    RoomForgetsAlphabet,
    RoomForgetsTerminalCount,
    RoomTellsRulesForBytes,
    RoomTellsNumbersInBytes,
    RoomTellsBytesOnRefusal,
    RoomTellsNumbersOnRefusal,
    RoomAddsToWhatWasHeld,
    RoomReadsNoAutomaton,
    RoomReadsAutomatonFirst,
    WrongBoard(Board),
    WrongAdding(Adding),
}

pub struct Planted {
    pub fault: Fault,
    old_form: RefCell<Option<Vec<u8>>>,
}

impl Planted {
    pub fn new(fault: Fault) -> Planted {
        Planted { fault, old_form: RefCell::new(None) }
    }

    pub fn has(&self, fault: Fault) -> bool {
        self.fault == fault
    }

    /// The sheet as this engine takes it; a damaged one is refused as it is.
    pub fn as_read(&self, sheet: &[u8]) -> Vec<u8> {
        let lawful = || Idiomatic.make_form(sheet, &mut [0; LONGEST_FORM], &mut 0) == 0;
        if self.has(Fault::ParametersByAppearance) && lawful() {
            return by_appearance(sheet);
        }
        self.wide_as_read(sheet).unwrap_or_else(|| sheet.to_vec())
    }

    /// The refusal that a wrong order of the checks gives.
    fn other_order(&self, sheet: &[u8], code: u8) -> u8 {
        if !(5..=13).contains(&code) {
            return code;
        }
        let [_, rules, _] = bodies(sheet);
        if self.has(Fault::AutomatonBeforeRules) {
            return of_automaton(sheet).unwrap_or(code);
        }
        if self.has(Fault::RanksBeforeNodes) && (9..=11).contains(&code) && rank_over_4(rules) {
            return 8;
        }
        code
    }

    /// Spoils a form that was made rightly in a slice that held these bytes.
    pub fn spoil_form(&self, held: &[u8], form: &mut [u8], written: &mut usize) {
        match self.fault {
            Fault::OldForm => {
                let mut old = self.old_form.borrow_mut();
                let old = old.get_or_insert_with(|| form[..*written].to_vec());
                if old.len() <= form.len() {
                    form[..old.len()].copy_from_slice(old);
                    *written = old.len();
                }
            }
            Fault::ConstantForm => {
                let rules = end(form);
                form[..4].copy_from_slice(&[1, 0, 0, 0]);
                form[rules..rules + 4].fill(0);
                form[rules + 4..rules + 12].fill(0xFF);
                *written = rules + 12;
            }
            Fault::FormWritesPast if *written < form.len() => form[*written] ^= 1,
            Fault::FormFollowsOldBytes if held.first() == Some(&0) => pad(form, written, 1),
            Fault::FormTooLarge => {
                let spare = (form.len() - *written) / 12;
                pad(form, written, spare);
            }
            _ => self.spoil_head(held, form, written),
        }
    }
}

/// The bodies of a sheet whose contents join.
pub fn bodies(sheet: &[u8]) -> [&[u8]; 3] {
    [0, 4, 8].map(|entry| {
        let number = |at: usize| usize::from(sheet[at]) + 256 * usize::from(sheet[at + 1]);
        &sheet[number(entry)..number(entry) + number(entry + 2)]
    })
}

/// The refusal of the automaton of a sheet whose contents join and whose alphabet is lawful.
pub fn of_automaton(sheet: &[u8]) -> Option<u8> {
    let [alphabet, _, automaton] = bodies(sheet);
    let walked = Idiomatic.walk(alphabet, automaton, &[], &mut [], &mut 0);
    Some(walked).filter(|code| (14..=16).contains(code))
}

fn rank_over_4(mut rules: &[u8]) -> bool {
    while let [rank, count, nodes @ ..] = rules {
        if *rank > 4 {
            return true;
        }
        rules = &nodes[usize::from(*count)..];
    }
    false
}

/// Repeats the first rule at the form's end so many times, where there is room.
fn pad(form: &mut [u8], written: &mut usize, times: usize) {
    for _ in 0..times {
        if *written + 12 <= form.len() {
            let rules = end(form);
            form.copy_within(rules..rules + 12, *written);
            *written += 12;
        }
    }
    let count = ((*written - end(form)) / 12) as u16;
    form[..2].copy_from_slice(&count.to_le_bytes());
}

/// The sheet with each rule's parameters numbered in the order they appear.
fn by_appearance(sheet: &[u8]) -> Vec<u8> {
    let mut sheet = sheet.to_vec();
    let mut at = usize::from(sheet[4]) + 256 * usize::from(sheet[5]);
    let end = at + usize::from(sheet[6]) + 256 * usize::from(sheet[7]);
    while at < end {
        let next = at + 2 + usize::from(sheet[at + 1]);
        let parameters = sheet[at + 2..next].iter_mut().filter(|node| **node >= 0x80);
        for (number, node) in parameters.enumerate() {
            *node = 0x80 + number as u8;
        }
        at = next;
    }
    sheet
}

/// The form with the slots of each rule of kind 3 exchanged.
fn reversed(form: &[u8]) -> Vec<u8> {
    let (rules, mut form) = (end(form), form.to_vec());
    for rule in form.get_mut(rules..).unwrap_or_default().chunks_exact_mut(12) {
        if rule[0] == 3 {
            rule[4..8].rotate_left(2);
        }
    }
    form
}

impl FixedCalls for Planted {
    fn evaluate(
        &self,
        alphabet: &[u8],
        automaton: &[u8],
        form: &[u8],
        relations: &mut [u64],
        mask: &mut u8,
    ) -> u8 {
        let swapped = reversed(form);
        let form = if self.has(Fault::WrongComposition) { &swapped } else { form };
        let mut counts = vec![0; form.len()];
        if self.has(Fault::FormBeforeAutomaton)
            && Idiomatic.size(alphabet, form, &mut counts, &mut 0) == 18
        {
            return 18;
        }
        let short = relations.len() < rules_behind(form);
        let on = OnForm { name: "evaluate", given: alphabet, form, short };
        let code = self.on_form(&on, |alphabet, form| {
            Idiomatic.evaluate(alphabet, automaton, form, relations, mask)
        });
        if code == 0 {
            self.join_by_fault(form, relations);
        }
        if code == 0 && self.has(Fault::ConstantMask) {
            *mask = 1;
        }
        if code == 0 && self.has(Fault::RelationsPastCleared) {
            relations[rules_behind(form)..].fill(0);
        }
        code
    }

    fn add_transition(
        &self,
        alphabet: &[u8],
        form: &[u8],
        automaton: &[u8],
        transition: &[u8],
        relations: &mut [u64],
        mask: &mut u8,
    ) -> u8 {
        let call = adding::Call { alphabet, form, automaton, transition, relations, mask };
        match self.fault {
            Fault::WrongAdding(adding) => adding.put(call),
            _ => call.right(),
        }
    }

    fn unfold(
        &self,
        alphabet: &[u8],
        form: &[u8],
        counts: &mut [u64],
        tree: &mut [u8],
        length: &mut usize,
    ) -> u8 {
        if self.has(Fault::LongerSaidOfWhatFits) && !tree.is_empty() {
            let shorter = tree.len() - 1;
            return Idiomatic.unfold(alphabet, form, counts, &mut tree[..shorter], length);
        }
        let short = counts.len() < 2 * rules_behind(form);
        let on = OnForm { name: "unfold", given: alphabet, form, short };
        let code = self
            .on_form(&on, |alphabet, form| Idiomatic.unfold(alphabet, form, counts, tree, length));
        if code == 20 && self.has(Fault::CountsWrittenOnLonger) {
            Idiomatic.size(alphabet, form, counts, &mut 0);
        }
        if code != 28 {
            return code;
        }
        self.before_28(Fault::LongerBeforeAlphabets, form, |own| {
            Idiomatic.unfold(own, form, &mut counts.to_vec(), &mut tree.to_vec(), &mut 0)
        })
    }

    fn size(&self, alphabet: &[u8], form: &[u8], counts: &mut [u64], size: &mut u64) -> u8 {
        let short = counts.len() < 2 * rules_behind(form);
        let on = OnForm { name: "size", given: alphabet, form, short };
        let code = self.on_form(&on, |alphabet, form| Idiomatic.size(alphabet, form, counts, size));
        if code == 0 && self.has(Fault::OverTooSoon) && *size >= u64::MAX - 1 {
            *size = u64::MAX;
        }
        code
    }

    fn label(
        &self,
        alphabet: &[u8],
        form: &[u8],
        position: u64,
        counts: &mut [u64],
        terminal: &mut u8,
    ) -> u8 {
        if self.has(Fault::LastPositionRefused) && position == u64::MAX - 1 {
            return Idiomatic.label(alphabet, form, u64::MAX, counts, terminal);
        }
        let short = counts.len() < 2 * rules_behind(form);
        let on = OnForm { name: "label", given: alphabet, form, short };
        let code = self.on_form(&on, |alphabet, form| {
            Idiomatic.label(alphabet, form, position, counts, terminal)
        });
        if code != 0 && self.has(Fault::TerminalWrittenOnRefusal) {
            *terminal = 0;
        }
        if code != 28 {
            return code;
        }
        self.before_28(Fault::PositionBeforeAlphabets, form, |own| {
            Idiomatic.label(own, form, position, &mut counts.to_vec(), &mut 0)
        })
    }

    fn read_rule(&self, alphabet: &[u8], form: &[u8], number: usize, rule: &mut [u16; 7]) -> u8 {
        let on = OnForm { name: "read_rule", given: alphabet, form, short: false };
        let code =
            self.on_form(&on, |alphabet, form| Idiomatic.read_rule(alphabet, form, number, rule));
        match code {
            0 if self.has(Fault::RulesReadOneOff) => *rule = fields_one_off(form, number),
            21 if self.has(Fault::RuleReadPastEnd) => return 0,
            28 => {
                return self.before_28(Fault::NumberBeforeAlphabets, form, |own| {
                    Idiomatic.read_rule(own, form, number, &mut [0; 7])
                });
            }
            _ => {}
        }
        code
    }

    fn walk(
        &self,
        alphabet: &[u8],
        automaton: &[u8],
        tree: &[u8],
        masks: &mut [u8],
        mask: &mut u8,
    ) -> u8 {
        let kept = masks.to_vec();
        let code = Idiomatic.walk(alphabet, automaton, tree, masks, mask);
        if code == 0 && self.has(Fault::WalkWritesRootOnly) {
            masks[1..].copy_from_slice(&kept[1..]);
        }
        if code == 23 && tree.is_empty() && self.has(Fault::WalkTakesEmpty) { 0 } else { code }
    }

    fn wrap(
        &self,
        alphabet: &[u8],
        tree: &[u8],
        automaton: &[u8],
        sheet: &mut [u8],
        length: &mut usize,
    ) -> u8 {
        if self.has(Fault::WrapChecksAutomatonFirst) {
            let code = Idiomatic.walk(alphabet, automaton, &[], &mut [], &mut 0);
            if (14..=16).contains(&code) {
                return code;
            }
        }
        Idiomatic.wrap(alphabet, tree, automaton, sheet, length)
    }

    fn practice(
        &self,
        first: u32,
        m: usize,
        automaton: &[u8],
        sheet: &mut [u8],
        length: &mut usize,
    ) -> u8 {
        self.practised(Practice { first, m, automaton, sheet, length })
    }

    fn room(&self, sheet: &[u8], form_bytes: &mut usize, numbers: &mut usize) -> u8 {
        self.room_told(sheet, form_bytes, numbers)
    }

    fn blackboard(&self, sheet: &[u8], table: &mut [u8], mask: &mut u8) -> u8 {
        match self.fault {
            Fault::WrongBoard(board) => board.put(sheet, table, mask),
            _ => Idiomatic.blackboard(sheet, table, mask),
        }
    }
}

impl Engine for Planted {
    fn make_form(&self, sheet: &[u8], form: &mut [u8], written: &mut usize) -> u8 {
        if let Fault::WrongSum(sum, Asked::Making) = self.fault {
            return made_by(sum, sheet, form, written);
        }
        let held = form.to_vec();
        if self.has(Fault::FormAsksOneMore) && !form.is_empty() {
            let shorter = form.len() - 1;
            return Idiomatic.make_form(sheet, &mut form[..shorter], written);
        }
        if self.has(Fault::ShortBeforeSheet) && form.len() < 16 {
            return 17;
        }
        let code = Idiomatic.make_form(&self.as_read(sheet), form, written);
        let fault = Fault::AlphabetNotInNeed;
        if code == 17 && self.asks_for_no_alphabet(fault, sheet, form.len()) {
            return 0;
        }
        let code = self.other_order(sheet, code);
        if code == 0 {
            self.spoil_form(&held, form, written);
            self.spoil_wide_form(sheet, form, written);
        }
        self.wide_refusal(sheet).unwrap_or(code)
    }

    fn mark(
        &self,
        sheet: &[u8],
        form: &mut [u8],
        relations: &mut [u64],
        candidate: usize,
        tally: &mut [u32],
        verdict: &mut u8,
        mask: &mut u8,
    ) -> u8 {
        self.marking(Call { sheet, form, relations, candidate, tally, verdict, mask })
    }
}
