//! The harness finds planted faults: each engine here is right but for one thing.

mod adding;
mod alphabets;
mod blackboard;
mod composing;
mod engine;
mod marking;
mod practice;
mod sums;
mod wide;

use adding::ADDINGS;
use blackboard::BOARDS;
use compare::harness::run::{run_generated, run_named};
use engine::{Fault, Planted};
use sums::{Asked, SUMS};

/// Each fault and the call whose difference tells of it.
const FAULTS: [(Fault, &str); 72] = [
    (Fault::OldForm, "make_form"),
    (Fault::ConstantForm, "make_form"),
    (Fault::FormWritesPast, "make_form"),
    (Fault::FormFollowsOldBytes, "make_form"),
    (Fault::FormTooLarge, "make_form"),
    (Fault::FormAsksOneMore, "make_form"),
    (Fault::ParametersByAppearance, "make_form"),
    (Fault::AutomatonBeforeRules, "make_form"),
    (Fault::RanksBeforeNodes, "make_form"),
    (Fault::ShortBeforeSheet, "make_form"),
    (Fault::ConstantMask, "evaluate"),
    (Fault::WrongComposition, "evaluate"),
    (Fault::ComposedBySum, "evaluate"),
    (Fault::ComposedByExclusiveOr, "evaluate"),
    (Fault::AppliedBySum, "evaluate"),
    (Fault::AppliedByExclusiveOr, "evaluate"),
    (Fault::RelationsPastCleared, "evaluate"),
    (Fault::FormBeforeAutomaton, "evaluate"),
    (Fault::CountsWrittenOnLonger, "unfold"),
    (Fault::LongerSaidOfWhatFits, "unfold"),
    (Fault::OverTooSoon, "size"),
    (Fault::LastPositionRefused, "label"),
    (Fault::TerminalWrittenOnRefusal, "label"),
    (Fault::RuleReadPastEnd, "read_rule"),
    (Fault::WalkWritesRootOnly, "walk"),
    (Fault::WalkTakesEmpty, "walk"),
    (Fault::WrapChecksAutomatonFirst, "wrap"),
    (Fault::RefuseAll, "mark"),
    (Fault::DeclineAll, "mark"),
    (Fault::TallyOnce, "mark"),
    (Fault::TurnedAwayNotCounted, "mark"),
    (Fault::ShortCounted, "mark"),
    (Fault::FullLooksAtAcceptedOnly, "mark"),
    (Fault::FullLooksAtMovedOnly, "mark"),
    (Fault::FullLooksAtAll, "mark"),
    (Fault::FullAfterSheet, "mark"),
    (Fault::RelationsForgotten, "mark"),
    (Fault::CandidateModulo16, "mark"),
    (Fault::CandidateModulo256, "mark"),
    (Fault::CandidateOfFourBytes, "mark"),
    (Fault::CandidateAfterSheet, "mark"),
    (Fault::NoCandidateCounted, "mark"),
    (Fault::NeighbourMoved, "mark"),
    (Fault::TallyOf47Taken, "mark"),
    (Fault::ShortTallyAfterCandidate, "mark"),
    (Fault::CountsPastWritten, "mark"),
    (Fault::ParityOfX, "practice"),
    (Fault::DrawBeforeStep, "practice"),
    (Fault::ProductLosesHighBit, "practice"),
    (Fault::HighHalfNotMultiplied, "practice"),
    (Fault::ProductStopsAtTop, "practice"),
    (Fault::SumStopsAtTop, "practice"),
    (Fault::InnerDrawnFirst, "practice"),
    (Fault::InnerAlwaysDrawn, "practice"),
    (Fault::NoDrawBelowOne, "practice"),
    (Fault::RemainderByM, "practice"),
    (Fault::LeafBeforeCall, "practice"),
    (Fault::StartCallsRuleBefore, "practice"),
    (Fault::MOf0Taken, "practice"),
    (Fault::MOf20Refused, "practice"),
    (Fault::MOf21Taken, "practice"),
    (Fault::MModulo256, "practice"),
    (Fault::MOfFourBytes, "practice"),
    (Fault::AutomatonBeforeM, "practice"),
    (Fault::ShortBeforeM, "practice"),
    (Fault::ShortBeforeAutomaton, "practice"),
    (Fault::OtherAlphabetChecked, "practice"),
    (Fault::SheetClearedFirst, "practice"),
    (Fault::ShortSheetBegun, "practice"),
    (Fault::LengthToldOnShort, "practice"),
    (Fault::SheetWritesPast, "practice"),
    (Fault::SheetFollowsOldBytes, "practice"),
];

/// Each fault of rules that leave out parameters or are one alone, the call whose difference tells
/// of it, and words of that difference.
const WIDE_FAULTS: [(Fault, &str, &str); 12] = [
    (Fault::RunOfDroppedAsked, "mark", "mask or terminal: found    0"),
    (Fault::PresentAsWritten, "make_form", "stands for no part of the tree"),
    (Fault::RuleForDropped, "make_form", "stands for no part of the tree"),
    (Fault::RenumberedByAppearance, "make_form", "the form derives another tree"),
    (Fault::FirstArgumentsKept, "make_form", "the form derives another tree"),
    (Fault::RepeatedAfterCleaning, "make_form", "code: expected 11"),
    (Fault::DroppedNamesNotChecked, "make_form", "code: expected 9"),
    (Fault::DroppedTreesNotChecked, "make_form", "code: expected 10"),
    (Fault::DroppedNodesNotCounted, "make_form", "code: expected 7"),
    (Fault::LoneStillRefused, "make_form", " 12\n"),
    (Fault::LoneOfRank1Only, "make_form", " 12\n"),
    (Fault::LeftOutStillRefused, "make_form", " 11\n"),
];

/// The same of forms that carry their alphabet.
const ALPHABET_FAULTS: [(Fault, &str, &str); 28] = [
    (Fault::AlphabetNotInNeed, "make_form", "code: expected 17, found 0"),
    (Fault::AlphabetNotInMarkingNeed, "mark", "code: expected 17, found 0"),
    (Fault::AlphabetLeftAsHeld, "make_form", "the form's head "),
    (Fault::RulesWrittenOneOff, "make_form", "the form is not valid"),
    (Fault::RulesReadOneOff, "read_rule", "rule: expected"),
    (Fault::GivenAlphabetReadAgainst, "evaluate", "code: expected"),
    (Fault::AlphabetsBeforeForm, "evaluate", "code: expected 18, found 28"),
    (Fault::AlphabetsBeforeRules, "evaluate", "code: expected 18, found 28"),
    (Fault::CommonPartCompared, "evaluate", "code: expected 28, found"),
    (Fault::LengthCompared, "size", "code: expected 28, found"),
    (Fault::UsedRanksCompared, "size", "code: expected 28, found"),
    (Fault::RanksComparedInAnyOrder, "size", "code: expected 28, found"),
    (Fault::LastRankNotCompared, "size", "code: expected 28, found"),
    (Fault::EvaluateComparesNot, "evaluate", "code: expected 28, found"),
    (Fault::SizeComparesNot, "size", "code: expected 28, found"),
    (Fault::LabelComparesNot, "label", "code: expected 28, found"),
    (Fault::UnfoldComparesNot, "unfold", "code: expected 28, found"),
    (Fault::ReadRuleComparesNot, "read_rule", "code: expected 28, found"),
    (Fault::AlphabetsBeforeAutomaton, "evaluate", ", found 28"),
    (Fault::ShortBeforeAlphabets, "evaluate", "code: expected 28, found 19"),
    (Fault::LongerBeforeAlphabets, "unfold", "code: expected 28, found 20"),
    (Fault::PositionBeforeAlphabets, "label", "code: expected 28, found 21"),
    (Fault::NumberBeforeAlphabets, "read_rule", "code: expected 28, found 21"),
    (Fault::CountsWrittenOnOther, "size", "numbers: found"),
    (Fault::HeadCountTold3, "evaluate", "code: expected 18, found 3"),
    (Fault::HeadRankTold4, "evaluate", "code: expected 18, found 4"),
    (Fault::HeadOf33Taken, "evaluate", "code: expected 18, found 28"),
    (Fault::OldFormatGuessed, "evaluate", "code: expected 18, found"),
];

/// The same of the call that tells what making and marking ask for, and of the order of 17 and 19.
const ROOM_FAULTS: [(Fault, &str, &str); 11] = [
    (Fault::NumbersBeforeBytes, "mark", "code: expected 17, found 19"),
    (Fault::RoomExchanged, "room", "numbers asked for: expected"),
    (Fault::RoomForgetsAlphabet, "room", "length: expected"),
    (Fault::RoomForgetsTerminalCount, "room", "length: expected"),
    (Fault::RoomTellsRulesForBytes, "room", "length: expected"),
    (Fault::RoomTellsNumbersInBytes, "room", "numbers asked for: expected"),
    (Fault::RoomTellsBytesOnRefusal, "room", "length: expected"),
    (Fault::RoomTellsNumbersOnRefusal, "room", "numbers asked for: expected"),
    (Fault::RoomAddsToWhatWasHeld, "room", "numbers asked for: expected"),
    (Fault::RoomReadsNoAutomaton, "room", "code: expected 1"),
    (Fault::RoomReadsAutomatonFirst, "room", "code: expected"),
];

/// Where a wrong sum is asked for, and the call whose difference tells of it.
const PLACES: [(Asked, &str); 4] = [
    (Asked::Room, "room"),
    (Asked::Making, "make_form"),
    (Asked::MarkingBytes, "mark"),
    (Asked::MarkingNumbers, "mark"),
];

#[test]
fn every_planted_fault_is_found() {
    found(&FAULTS);
}

#[test]
fn every_wrong_sum_is_found_wherever_it_is_asked_for() {
    for sum in SUMS {
        found(&PLACES.map(|(asked, call)| (Fault::WrongSum(sum, asked), call)));
    }
}

#[test]
fn the_named_examples_alone_find_every_wrong_sum() {
    for sum in SUMS {
        for (asked, call) in PLACES {
            let fault = Fault::WrongSum(sum, asked);
            let difference = run_named(&Planted::new(fault), 5).err();
            let difference = difference.unwrap_or_else(|| panic!("{fault:?} was not found"));
            assert_eq!(difference.call(), call, "{fault:?}");
        }
    }
}

#[test]
fn every_planted_fault_of_the_room_told_is_found() {
    found_with_words(&ROOM_FAULTS);
}

#[test]
fn every_planted_fault_of_the_blackboard_is_found() {
    found_with_words(&BOARDS.map(|(board, words)| (Fault::WrongBoard(board), "blackboard", words)));
}

#[test]
fn the_named_examples_alone_find_every_fault_of_the_blackboard() {
    for (board, words) in BOARDS {
        let difference = run_named(&Planted::new(Fault::WrongBoard(board)), 5).err();
        let difference = difference.unwrap_or_else(|| panic!("{board:?} was not found"));
        assert_eq!(difference.call(), "blackboard", "{board:?}");
        assert!(difference.to_string().contains(words), "{board:?}");
    }
}

#[test]
fn every_planted_fault_of_adding_is_found() {
    let faults = ADDINGS.map(|(adding, words)| (Fault::WrongAdding(adding), words));
    found_with_words(&faults.map(|(fault, words)| (fault, "add_transition", words)));
}

#[test]
fn the_named_examples_alone_find_every_fault_of_adding() {
    for (adding, words) in ADDINGS {
        let difference = run_named(&Planted::new(Fault::WrongAdding(adding)), 5).err();
        let difference = difference.unwrap_or_else(|| panic!("{adding:?} was not found"));
        assert_eq!(difference.call(), "add_transition", "{adding:?}");
        let told = difference.to_string();
        assert!(told.contains(words), "{adding:?}\n{told}");
    }
}

#[test]
fn every_planted_fault_of_wider_rules_is_found() {
    found_with_words(&WIDE_FAULTS);
}

#[test]
fn every_planted_fault_of_alphabets_is_found() {
    found_with_words(&ALPHABET_FAULTS);
}

fn found(faults: &[(Fault, &str)]) {
    for &(fault, call) in faults {
        let failure = run_generated(&Planted::new(fault), 4000, 5).err();
        let failure = failure.unwrap_or_else(|| panic!("{fault:?} was not found"));
        assert_eq!(failure.difference.call(), call, "{fault:?}");
    }
}

fn found_with_words(faults: &[(Fault, &str, &str)]) {
    for &(fault, call, words) in faults {
        let failure = run_generated(&Planted::new(fault), 4000, 5).err();
        let failure = failure.unwrap_or_else(|| panic!("{fault:?} was not found"));
        let told = failure.difference.to_string();
        assert_eq!(failure.difference.call(), call, "{fault:?}\n{told}");
        assert!(told.contains(words), "{fault:?}\n{told}");
    }
}
