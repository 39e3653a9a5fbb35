//! R-7 by the reference: its examples, and its tables beside runs over the open trees that rules
//! derive.

use compare::calls::FixedCalls;
use compare::generate::random::Random;
use compare::generate::{damage, sheets};
use compare::harness::named_blackboard::{BOARDS, lone};
use compare::harness::named_wide::sheet;
use compare::reference::automaton::Automaton;
use compare::reference::blackboard::TABLE;
use compare::reference::derivation;
use compare::reference::facts::{Facts, SMALL};
use compare::reference::fixed_calls::Reference;
use compare::reference::outline::{Outlines, Piece};
use compare::reference::sheet::Sheet;
use compare::reference::term::Term;
use compare::refusal::Refusal;
use compare::rows;

/// What slice and mask hold before a call.
const HELD: u8 = 0xA5;

/// The code, the slice and the mask after a call with a slice of so many bytes.
fn blackboard(sheet: &[u8], length: usize) -> (u8, Vec<u8>, u8) {
    let (mut table, mut mask) = (vec![HELD; length], HELD);
    let code = Reference.blackboard(sheet, &mut table, &mut mask);
    (code, table, mask)
}

/// The tables with these bytes by their places, and all else 0.
fn tables(places: &[&[(usize, u8)]]) -> Vec<u8> {
    let mut bytes = vec![0; TABLE * places.len()];
    for (rule, places) in places.iter().enumerate() {
        for (place, byte) in *places {
            bytes[TABLE * rule + place] = *byte;
        }
    }
    bytes
}

/// The states at the four parameters for which a byte of a table stands.
fn states_of(place: usize) -> [u8; 4] {
    [place % 8, place / 8 % 8, place / 64 % 8, place / 512].map(|state| state as u8)
}

#[test]
fn the_examples() {
    for board in BOARDS {
        let (need, sheet) = (TABLE * board.tables.len(), sheet(board.rules, board.automaton));
        let expected = tables(board.tables);
        assert_eq!(blackboard(&sheet, need), (0, expected, board.mask), "{}", board.rules);
    }
}

#[test]
fn lone_parameters_are_identities_on_the_states_that_there_are() {
    for states in 1..=8 {
        for (rank, parameter) in (1..=4).flat_map(|rank| (0..rank).map(move |it| (rank, it))) {
            let (code, table, mask) = blackboard(&lone(rank, parameter, states), 2 * TABLE);
            assert_eq!((code, mask), (0, 0));
            for (place, byte) in table[..TABLE].iter().enumerate() {
                let entered = states_of(place);
                let (own, others) = entered.split_at(rank.into());
                let is_choice =
                    own.iter().all(|&it| it < states) && others.iter().all(|&it| it == 0);
                let expected = if is_choice { 1 << own[usize::from(parameter)] } else { 0 };
                assert_eq!(*byte, expected, "{states} states, parameter {parameter} of {rank}");
            }
            assert_eq!(table[TABLE..], [0; TABLE]);
        }
    }
}

#[test]
fn lengths_of_the_slice() {
    let w = rows::sheet("K1 W");
    let expected = tables(BOARDS[0].tables);
    for length in [0, 1, TABLE, 12_287] {
        assert_eq!(blackboard(&w, length), (19, vec![HELD; length], HELD));
    }
    for more in [0, 1, 2, TABLE] {
        let (code, table, mask) = blackboard(&w, 12_288 + more);
        assert_eq!((code, mask), (0, 1));
        assert_eq!(table, [&expected[..], &vec![HELD; more]].concat());
    }
}

#[test]
fn refusals_are_those_of_the_sheet_and_leave_slice_and_mask() {
    let mut refusals = [0; 17];
    for case in 0..4000 {
        let mut random = Random::of_case(7, case);
        let plan = sheets::plan(&mut random);
        let sheet = damage::damaged(&mut random, &plan);
        let Err(Refusal(number)) = Sheet::read(&sheet) else { continue };
        for length in [0, TABLE] {
            assert_eq!(blackboard(&sheet, length), (number, vec![HELD; length], HELD));
        }
        refusals[usize::from(number)] += 1;
    }
    for (number, times) in refusals.into_iter().enumerate().skip(1) {
        assert_eq!(times > 0, number != 12, "{number}");
    }
}

/// The states that a run may give the root of an open tree when it enters the parameters in these
/// states.
fn root_states(automaton: &Automaton, open: &Term, entered: &[u8]) -> u8 {
    match open {
        Term::Parameter(parameter) => 1 << entered[*parameter],
        Term::Terminal(terminal, children) => {
            let of_child = |child| root_states(automaton, child, entered);
            automaton.step(*terminal, &children.iter().map(of_child).collect::<Vec<u8>>())
        }
        Term::Call(..) => unreachable!("an open tree has no calls"),
    }
}

/// How many nodes a rule derives, its parameters not counted.
fn size(outlines: &Outlines, rule: usize) -> u64 {
    let length = |piece: &Piece| match piece {
        Piece::Terminals(stretch) => stretch.length,
        Piece::Parameter(_) => 0,
    };
    outlines.of_rule(rule).iter().map(length).fold(0, u64::saturating_add)
}

/// Whether the rule's table has for each choice of states what runs over its open tree say.
fn agrees(automaton: &Automaton, rank: usize, open: &Term, table: &[u8]) -> bool {
    table.iter().enumerate().all(|(place, byte)| {
        let entered = states_of(place);
        let (own, others) = entered.split_at(rank);
        let exist = own.iter().all(|&it| it < automaton.states);
        let is_choice = exist && others.iter().all(|&it| it == 0);
        *byte == if is_choice { root_states(automaton, open, own) } else { 0 }
    })
}

#[test]
fn tables_are_those_of_runs_over_what_rules_derive() {
    let mut compared = [0; 5];
    for case in 0..400 {
        let sheet = sheets::plan(&mut Random::of_case(12, case)).sheet();
        let facts = Facts::of(&sheet).expect("a lawful sheet");
        let Sheet { rules, automaton, .. } = &facts.sheet;
        let outlines = Outlines::of(rules);
        for (number, rule) in rules.iter().enumerate() {
            let most = if rule.rank > 2 { 40 } else { SMALL / 8 };
            if size(&outlines, number) > most {
                continue;
            }
            let open = derivation::open_tree(rules, number);
            let table = &facts.blackboard.bytes[TABLE * number..TABLE * (number + 1)];
            assert!(agrees(automaton, rule.rank, &open, table), "case {case}, rule {number}");
            compared[rule.rank] += 1;
        }
    }
    assert!(compared.iter().all(|&times| times > 200), "{compared:?}");
}
