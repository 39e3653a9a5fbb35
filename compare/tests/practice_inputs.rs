//! The practice sheets that are generated come to every case that the call tells apart.

use compare::generate::practice::{Practice, like_w, practice};
use compare::generate::random::Random;
use compare::limits::MOST_TRANSITIONS;
use compare::reference::alphabet::Alphabet;
use compare::reference::automaton::Automaton;
use compare::reference::practice::ALPHABET;
use compare::reference::sheet::Sheet;
use compare::refusal::Refusal;
use compare::rows;

fn generated() -> Vec<Practice> {
    (0..10_000).map(|case| practice(&mut Random::of_case(8, case))).collect()
}

#[test]
fn first_numbers() {
    let drawn: Vec<u32> = generated().iter().map(|practice| practice.first).collect();
    for wanted in [0, 1, 2, 65_535, 65_536, (1 << 31) - 1, 1 << 31, u32::MAX] {
        assert!(drawn.contains(&wanted), "{wanted}");
    }
    assert!(drawn.iter().any(|first| (3..65_535).contains(first)));
    assert!(drawn.iter().any(|first| (1 << 31) + 1 < *first && *first < u32::MAX));
}

#[test]
fn numbers_of_rules_and_those_beyond() {
    let drawn: Vec<usize> = generated().iter().map(|practice| practice.m).collect();
    let beyond = [0, 21, 22, 84, 255, 256, 257, 276, 65_537, 1 << 32, (1 << 32) + 1, usize::MAX];
    for wanted in (1..=20).chain(beyond) {
        assert!(drawn.contains(&wanted), "{wanted}");
    }
}

#[test]
fn the_automaton_like_w_has_other_terminals_only() {
    let w = Sheet::read(&rows::sheet("K1 W")).expect("a lawful sheet");
    let mut automaton = like_w();
    for row in automaton[2..].chunks_mut(6) {
        // h is 1 here and 2 in W; f is 2 here and 1 in W.
        row[0] = [0, 2, 1][usize::from(row[0])];
    }
    assert_eq!(automaton, w.automaton_body);
}

/// The refusal of an automaton over the alphabet of practice sheets.
fn refused(automaton: &[u8]) -> Option<Refusal> {
    let alphabet = Alphabet::read(&ALPHABET).expect("a lawful alphabet");
    Automaton::read(&alphabet, automaton).err()
}

/// How many transitions an automaton has, if none is cut.
fn transitions(automaton: &[u8]) -> Option<usize> {
    let rest = automaton.len().checked_sub(2)?;
    rest.is_multiple_of(6).then_some(rest / 6)
}

#[test]
fn automata_of_every_length() {
    let drawn: Vec<Vec<u8>> = generated().into_iter().map(|practice| practice.automaton).collect();
    let any = |wanted: Option<Refusal>, fits: &dyn Fn(&[u8]) -> bool| {
        drawn.iter().any(|automaton| refused(automaton) == wanted && fits(automaton))
    };
    for count in [0, 1, MOST_TRANSITIONS - 1, MOST_TRANSITIONS] {
        assert!(any(None, &|automaton| transitions(automaton) == Some(count)), "{count}");
    }
    assert!(
        any(Some(Refusal(14)), &|automaton| transitions(automaton) == Some(MOST_TRANSITIONS + 1))
    );
    assert!(any(Some(Refusal(14)), &|automaton| transitions(automaton).is_none()));
    for length in [0, 1] {
        assert!(any(Some(Refusal(14)), &|automaton| automaton.len() == length));
    }
    for states in [0, 9] {
        assert!(any(Some(Refusal(15)), &|automaton| automaton[0] == states));
    }
    assert!(any(Some(Refusal(15)), &|automaton| (1..8).contains(&automaton[0])));
}

#[test]
fn automata_with_every_wrong_transition() {
    let lawful_but_for_16 = |practice: &Practice| refused(&practice.automaton) == Some(Refusal(16));
    let drawn: Vec<[u8; 8]> = generated()
        .into_iter()
        .filter(lawful_but_for_16)
        .flat_map(|Practice { automaton, .. }| {
            let head = [automaton[0], automaton[1]];
            let rows = automaton[2..].as_chunks::<6>().0.to_vec();
            rows.into_iter().map(move |row| [&head[..], &row].concat().try_into().expect("eight"))
        })
        .filter(|automaton: &[u8; 8]| refused(automaton).is_some())
        .collect();
    let any = |fits: &dyn Fn(&[u8; 8]) -> bool| drawn.iter().any(fits);
    assert!(any(&|row| row[2] == 3), "terminal 3");
    assert!(any(&|row| row[2] < 3 && row[3] >= row[0]), "no such target");
    assert!(any(&|row| row[2] == 0 && row[4] != 0xFF), "a with a child");
    assert!(any(&|row| row[2] == 1 && row[4] == 0xFF), "h without a child");
    assert!(any(&|row| row[2] == 1 && row[5] != 0xFF && row[6] == 0xFF), "h with two children");
    assert!(any(&|row| row[2] == 2 && row[5] == 0xFF), "f with one child");
    assert!(any(&|row| row[2] == 2 && row[6] != 0xFF), "f with three children");
    assert!(any(&|row| row[2] == 2 && row[7] != 0xFF), "f with a fourth child");
    assert!(any(&|row| row[2] == 2 && row[5] >= row[0] && row[5] != 0xFF), "no such state");
}
