//! The reference on the sheets of the documents, beyond what rows of calls show.

use compare::generate::random::Random;
use compare::harness::checker::Checker;
use compare::hex::bytes;
use compare::idiomatic::Idiomatic;
use compare::reference::calls;
use compare::reference::facts::Facts;
use compare::reference::making;
use compare::reference::marking;
use compare::reference::tally::{self, Step, Tally, ZERO};
use compare::refusal::Refusal;
use compare::rows;

fn facts(name: &str) -> Facts {
    Facts::of(&rows::sheet(name)).expect("a lawful sheet")
}

#[test]
fn lengths_and_node_counts() {
    assert_eq!(rows::sheet("K1 W").len(), 58);
    assert_eq!(facts("K7 h doubled ten times, on a").sheet.node_count(), 34);
    assert_eq!(facts("K10 127 h over a").sheet.node_count(), 128);
}

/// The refusal of the empty sheet, marked without slices.
fn refused(tally: &Tally, candidate: usize) -> Option<Refusal> {
    marking::allowed(tally, candidate, &Facts::of(&[]), 0, 0).err()
}

/// A tally with one full count of candidate 2.
fn full(way: usize) -> Tally {
    let mut tally = ZERO;
    tally[2][way] = u32::MAX;
    tally
}

#[test]
fn a_full_count_is_told_before_the_sheet_and_of_its_candidate_only() {
    for way in 0..3 {
        assert_eq!(refused(&full(way), 2), Some(Refusal(25)));
        assert_eq!(refused(&full(way), 3), Some(Refusal(1)));
    }
}

#[test]
fn a_candidate_over_15_is_told_before_a_full_count() {
    for candidate in [16, 17, 255, 256, 258, 65_536, 1 << 32, usize::MAX] {
        assert_eq!(refused(&[[u32::MAX; 3]; 16], candidate), Some(Refusal(26)));
    }
    assert_eq!(refused(&ZERO, 15), Some(Refusal(1)));
}

#[test]
fn steps_are_refused_as_markings_are() {
    for step in [Step::Accept, Step::Decline, Step::TurnAway] {
        assert_eq!(tally::step([[u32::MAX; 3]; 16], 16, step), Err(Refusal(26)));
        for way in 0..3 {
            assert_eq!(tally::step(full(way), 2, step), Err(Refusal(25)));
            let mut moved = full(way);
            moved[3][step as usize] = 1;
            assert_eq!(tally::step(full(way), 3, step), Ok(moved));
        }
    }
}

#[test]
fn a_short_tally_is_told_before_all_and_later_counts_are_kept() {
    let facts = Facts::of(&[]);
    for candidate in [0, 16] {
        let mut short = [u32::MAX; 47];
        let refused = marking::marked(&mut short, candidate, &facts, 0, 0).err();
        assert_eq!((refused, short), (Some(Refusal(19)), [u32::MAX; 47]));
    }
    let mut longer = [7; 51];
    let refused = marking::marked(&mut longer, 15, &facts, 0, 0).err();
    assert_eq!((refused, longer[47]), (Some(Refusal(1)), 8));
    longer[47] = 7;
    assert_eq!(longer, [7; 51]);
}

#[test]
fn the_list_of_five_markings() {
    let mut checker = Checker::new(&Idiomatic);
    let answers = checker.named_list(&mut Random::new(1), &rows::sheet("K1 W"));
    let answers = answers.unwrap_or_else(|difference| panic!("{difference}"));
    let codes: Vec<u8> = answers.iter().map(|(code, _)| *code).collect();
    assert_eq!((codes, answers[0].1, answers[1].1), (vec![0, 0, 1, 26, 17], 1, 0));
    let mut tally = ZERO;
    (tally[0], tally[1]) = ([1, 0, 1], [0, 1, 0]);
    assert_eq!((*checker.list.tally(), checker.list.totals().counts), (tally, [1; 3]));
}

#[test]
fn a_form_of_w_by_hand_may_be_made() {
    // a, h, hh, hhhh, hhhh(a), f(hhhh(a), a).
    let form = bytes(
        "0600 0500 | 03 00 02 01 | \
         00 00 00 00 FFFF FFFF FFFF FFFF, 01 02 01 00 FFFF FFFF FFFF FFFF, \
         03 FF 00 00 0100 0100 FFFF FFFF, 03 FF 00 00 0200 0200 FFFF FFFF, \
         02 FF 00 00 0300 0000 FFFF FFFF, 00 01 00 00 0400 0000 FFFF FFFF",
    );
    let facts = facts("K1 W");
    assert_eq!(facts.sheet.rule_bound(), 17);
    assert_eq!(making::check(&facts, &form), Ok(()));
    let other = bytes("0100 0000 | 03 00 02 01 | 00 00 00 00 FFFF FFFF FFFF FFFF");
    assert!(making::check(&facts, &other).is_err());
}

#[test]
fn composing_goes_from_hole_to_root() {
    // b takes 0 to 1 and c takes 1 to 2: c(b(y)) leads from 0 to 2, b(c(y)) nowhere.
    let automaton = bytes("03 04, 00 01 00 FF FF FF, 01 02 01 FF FF FF");
    let form = bytes(
        "0500 0400 | 03 01 01 00 | \
         01 00 01 00 FFFF FFFF FFFF FFFF, 01 01 01 00 FFFF FFFF FFFF FFFF, \
         03 FF 00 00 0100 0000 FFFF FFFF, 03 FF 00 00 0000 0100 FFFF FFFF, \
         00 02 00 00 FFFF FFFF FFFF FFFF",
    );
    let mut relations = [0; 5];
    assert_eq!(calls::evaluate(&[1, 1, 0], &automaton, &form, &mut relations), Ok(0));
    assert_eq!(relations, [1 << 1, 1 << (8 + 2), 1 << 2, 0, 0]);
}
