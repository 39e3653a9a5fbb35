//! Forms that carry their alphabet: the examples of R-5 by the reference, through every call on a
//! form.

use compare::calls::FixedCalls;
use compare::harness::named_alphabets::{ALPHABETS, carrying, leaves, transition_over};
use compare::hex::bytes;
use compare::reference::facts::Facts;
use compare::reference::fixed_calls::Reference;
use compare::reference::making;
use compare::refusal::Refusal;
use compare::rows;

/// What a slice or a place holds that no call has written to.
const HELD: u8 = 0xA5;

/// The codes of evaluation, size, label, unfolding, reading and adding, with slices of so many
/// numbers and room for so many nodes; and whether all that was lent is as it was.
fn codes(given: &[u8], form: &[u8], numbers: usize, room: usize) -> ([u8; 6], bool) {
    let untouched = vec![u64::from(HELD); numbers];
    let mut slices = [(); 5].map(|()| untouched.clone());
    let [relations, of_size, of_label, of_unfolding, of_adding] = &mut slices;
    let (mut tree, mut rule) = (vec![HELD; room], [u16::from(HELD); 7]);
    let (new, mut added) = (transition_over(given), HELD);
    let (mut mask, mut size, mut terminal, mut length) = (HELD, HELD.into(), HELD, HELD.into());
    let codes = [
        Reference.evaluate(given, &[1, 0], form, relations, &mut mask),
        Reference.size(given, form, of_size, &mut size),
        Reference.label(given, form, 0, of_label, &mut terminal),
        Reference.unfold(given, form, of_unfolding, &mut tree, &mut length),
        Reference.read_rule(given, form, 0, &mut rule),
        Reference.add_transition(given, form, &[1, 0], &new, of_adding, &mut added),
    ];
    let held = slices.iter().all(|slice| *slice == untouched)
        && tree.iter().chain([&mask, &terminal, &added]).all(|&byte| byte == HELD)
        && (size, length, rule) == (HELD.into(), HELD.into(), [HELD.into(); 7]);
    (codes, held)
}

#[test]
fn every_call_on_a_form_says_so() {
    for (given, carried, around, code) in ALPHABETS {
        let (given, form) = (bytes(given), carrying(carried, around));
        let (found, held) = codes(&given, &form, 4, 3);
        assert_eq!((found, held), ([code; 6], code != 0), "{given:?} {form:?}");
    }
}

#[test]
fn short_slices_are_told_later() {
    for (given, carried, around, code) in ALPHABETS {
        let (given, form) = (bytes(given), carrying(carried, around));
        let wanted = if code == 0 { [19, 19, 19, 19, 0, 19] } else { [code; 6] };
        assert_eq!(codes(&given, &form, 0, 0).0, wanted, "{given:?} {form:?}");
        let wanted = if code == 0 { [0, 0, 0, 20, 0, 0] } else { [code; 6] };
        assert_eq!(codes(&given, &form, 4, 0).0, wanted, "{given:?} {form:?}");
    }
}

#[test]
fn positions_and_numbers_are_told_later() {
    for (given, carried, around, code) in ALPHABETS {
        let (given, form) = (bytes(given), carrying(carried, around));
        let wanted = if code == 0 { 21 } else { code };
        for position in [3, u64::MAX] {
            let found = Reference.label(&given, &form, position, &mut [0; 4], &mut 0);
            assert_eq!(found, wanted, "{given:?} {form:?}");
        }
        for number in [2, usize::MAX] {
            let found = Reference.read_rule(&given, &form, number, &mut [0; 7]);
            assert_eq!(found, wanted, "{given:?} {form:?}");
        }
    }
}

#[test]
fn automata_are_checked_against_the_alphabet_given_and_first() {
    // Terminal 01 with two children fits f in the given alphabet, and h in the form's not.
    let over_f = bytes("01 00, 01 00 00 00 FF FF");
    let over_h = bytes("01 00, 01 00 00 FF FF FF");
    for (given, carried, around, code) in ALPHABETS {
        let (given, form) = (bytes(given), carrying(carried, around));
        let mask =
            |automaton: &[u8]| Reference.evaluate(&given, automaton, &form, &mut [0; 4], &mut 0);
        for (automaton, rank) in [(&over_f, 2), (&over_h, 1)] {
            let fits = given.get(1) == Some(&rank);
            let wanted = if fits || code == 3 || code == 4 { code } else { 16 };
            assert_eq!(mask(automaton), wanted, "{given:?} {form:?}");
        }
        for (automaton, refusal) in [(&[1][..], 14), (&[0, 0], 15)] {
            let wanted = if code == 3 || code == 4 { code } else { refusal };
            assert_eq!(mask(automaton), wanted, "{given:?} {form:?}");
        }
    }
}

#[test]
fn one_to_32_terminals() {
    for (terminals, code) in [(0, 18), (1, 0), (31, 0), (32, 0), (33, 18), (255, 18)] {
        let given = vec![0; usize::from(terminals).clamp(1, 32)];
        assert_eq!(codes(&given, &leaves(1, terminals), 2, 1).0, [code; 6], "{terminals}");
    }
    let (longest, given) = (leaves(2048, 32), [0; 32]);
    assert_eq!((longest.len(), codes(&given, &longest, 4096, 1).0), (24_613, [0; 6]));
    assert_eq!(codes(&given, &leaves(2049, 32), 4098, 1).0, [18; 6]);
    assert_eq!(codes(&given[1..], &longest, 4096, 1).0, [28; 6]);
}

#[test]
fn what_making_asks_for() {
    let facts = Facts::of(&rows::sheet("K1 W"));
    assert_eq!(making::allowed(&facts, 211).err(), Some(Refusal(17)));
    assert!(making::allowed(&facts, 212).is_ok());
}

#[test]
fn a_made_form_carries_the_alphabet_of_the_sheet() {
    let facts = Facts::of(&rows::sheet("K4 only rule 00 01 00")).expect("a lawful sheet");
    for (_, carried, around, code) in ALPHABETS {
        let checked = making::check(&facts, &carrying(carried, around));
        let own = carried == "03 00 02 01";
        assert_eq!(checked.is_ok(), own && code != 18, "{carried}");
        match checked {
            Ok(()) => {}
            Err(told) if own => assert_eq!(told, "the form is not valid"),
            Err(told) => assert!(told.contains("the form's head "), "{told}"),
        }
    }
}
