//! Practice sheets by the reference: the examples of R-2, and what it says of every first x.

use compare::calls::FixedCalls;
use compare::generate::practice::like_w;
use compare::generate::random::Random;
use compare::hex::bytes;
use compare::idiomatic::Idiomatic;
use compare::reference::calls;
use compare::reference::described::Described;
use compare::reference::facts::Facts;
use compare::reference::practice::{ALPHABET, Drawn, Generator, drawn, rules};
use compare::refusal::{Answer, Refusal};

/// One state that is not final, and no transitions.
const BARE: [u8; 2] = [1, 0];

/// The sheet, where the slice is long enough for every one.
fn sheet(first: u32, m: usize, automaton: &[u8]) -> Answer<Vec<u8>> {
    let mut slice = vec![0xA5; 1832];
    let length = calls::practice(first, m, automaton, &mut slice)?;
    slice.truncate(length);
    Ok(slice)
}

fn facts(first: u32, m: usize) -> Facts {
    let sheet = sheet(first, m, &like_w()).expect("nothing is wrong");
    Facts::of(&sheet).unwrap_or_else(|refusal| panic!("{first} {m}: {refusal:?}"))
}

fn described(first: u32, m: usize) -> Described {
    Described::of(&drawn(first, m))
}

#[test]
fn the_draws_from_0() {
    let mut generator = Generator::from(0);
    assert_eq!([(); 3].map(|()| generator.draw()), [15_470, 18_256, 53_708]);
}

#[test]
fn later_draws_are_the_upper_halves_of_the_known_numbers() {
    // The first numbers of this generator from 0, as Numerical Recipes prints them to test it by.
    let known: [u32; 10] = [
        0x3C6E_F35F,
        0x4750_2932,
        0xD1CC_F6E9,
        0xAAF9_5334,
        0x6252_E503,
        0x9F2E_C686,
        0x57FE_6C2D,
        0xA3D9_5FA8,
        0x81FD_BEE7,
        0x94F0_AF1A,
    ];
    let mut generator = Generator::from(0);
    for number in known {
        assert_eq!(generator.draw(), u64::from(number >> 16));
    }
}

#[test]
fn an_even_first_draw() {
    let written = "0C00 0300 0F00 0D00 1C00 0200 | 00 01 02 | \
                   01 02 01 80, 01 03 40 40 80, 00 02 41 00 | 01 00";
    assert_eq!(bytes(written).len(), 30);
    assert_eq!(sheet(0, 1, &BARE), Ok(bytes(written)));
    assert_eq!(described(0, 1).tree, Some(bytes("01 01 00")));
}

#[test]
fn an_odd_first_draw() {
    let written = "0C00 0300 0F00 0E00 1D00 0200 | 00 01 02 | \
                   01 02 01 80, 01 04 02 40 80 00, 00 02 41 00 | 01 00";
    assert_eq!(bytes(written).len(), 31);
    assert_eq!(Generator::from(2).draw(), 15_521);
    assert_eq!(sheet(2, 1, &BARE), Ok(bytes(written)));
    assert_eq!(described(2, 1).tree, Some(bytes("02 01 00 00")));
}

#[test]
fn three_rules_drawn() {
    assert_eq!(described(0, 3).tree, Some(bytes("02 01 02 01 00 00 00")));
    assert_eq!(facts(0, 3).tree, described(0, 3).tree);
}

#[test]
fn many_nodes_from_twenty_rules() {
    let described = described(30_203_644, 20);
    assert_eq!(described.whole.length, 547);
    assert_eq!(described.tree.map(|tree| tree.len()), Some(547));
}

#[test]
fn refusals_and_their_order() {
    let refused = |m, automaton: &[u8], room: usize| {
        let mut slice = vec![0xA5; room];
        let answer = calls::practice(0, m, automaton, &mut slice);
        assert_eq!(slice, vec![0xA5; room]);
        answer
    };
    for m in [0, 21, 22, 84, 255, 256, 257, 1 << 32, (1 << 32) + 1, usize::MAX] {
        assert_eq!(refused(m, &[], 0), Err(Refusal(27)), "{m}");
        assert_eq!(refused(m, &BARE, 1832), Err(Refusal(27)), "{m}");
    }
    assert_eq!(refused(1, &[1], 0), Err(Refusal(14)));
    assert_eq!(refused(1, &bytes("00 00, 03 00 FF FF FF FF"), 0), Err(Refusal(15)));
    assert_eq!(refused(1, &bytes("01 00, 03 00 FF FF FF FF"), 0), Err(Refusal(16)));
    assert_eq!(refused(1, &BARE, 29), Err(Refusal(24)));
}

#[test]
fn bytes_behind_the_sheet_are_kept() {
    let mut slice = [0xA5; 33];
    assert_eq!(calls::practice(0, 1, &BARE, &mut slice), Ok(30));
    assert_eq!(slice[28..], [1, 0, 0xA5, 0xA5, 0xA5]);
    assert_eq!(calls::practice(0, 1, &BARE, &mut slice[..30]), Ok(30));
}

#[test]
fn the_longest_automaton() {
    let mut automaton = vec![1, 1];
    automaton.extend([1, 0, 0, 0xFF, 0xFF, 0xFF].repeat(255));
    let written = sheet(u32::MAX, 20, &automaton).expect("nothing is wrong");
    assert!(Facts::of(&written).is_ok());
    automaton.extend([1, 0, 0, 0xFF, 0xFF, 0xFF]);
    assert_eq!(sheet(u32::MAX, 20, &automaton), Err(Refusal(14)));
}

/// First numbers at the ends of their ranges, and many more.
fn first_numbers() -> impl Iterator<Item = u32> {
    let mut random = Random::new(6);
    let ends = [0, 1, 2, 65_535, 65_536, 1 << 31, u32::MAX];
    ends.into_iter().chain((0..200).map(move |_| random.word() as u32))
}

#[test]
fn every_sheet_is_lawful_and_derives_the_tree_that_the_draws_describe() {
    for first in first_numbers() {
        for m in 1..=20 {
            assert_eq!(described(first, m).check(&facts(first, m)), Ok(()), "{first} {m}");
        }
    }
}

/// The facts of the sheet of these draws, whether some first x gives them or not.
fn facts_of(drawn: &[Drawn]) -> Facts {
    let sheet = calls::joined(&[&ALPHABET, &rules(drawn), &like_w()]);
    Facts::of(&sheet).expect("a lawful sheet")
}

#[test]
fn draws_that_describe_large_trees() {
    for m in [11, 12, 20] {
        let doubling: Vec<Drawn> = (0..m).map(|rule| Drawn::Twice { j: rule, k: rule }).collect();
        let described = Described::of(&doubling);
        assert_eq!(described.whole.length, (1 << m) + 1);
        assert_eq!(described.tree.is_some(), m == 11);
        assert_eq!(described.check(&facts_of(&doubling)), Ok(()));
    }
    // Some a stand behind the open place, so that the order of contexts matters.
    let mut mixed = vec![Drawn::Beside { j: 0 }, Drawn::Twice { j: 1, k: 0 }];
    mixed.extend((2..20).map(|rule| Drawn::Twice { j: rule, k: rule - 1 }));
    let described = Described::of(&mixed);
    assert!(described.tree.is_none() && described.check(&facts_of(&mixed)).is_ok());
    mixed[1] = Drawn::Twice { j: 0, k: 1 };
    assert!(described.check(&facts_of(&mixed)).is_err_and(|told| told.contains("another tree")));
}

#[test]
fn another_tree_than_the_draws_describe_is_told() {
    let told = described(0, 1).check(&facts(2, 1));
    assert_eq!(told, Err("the draws describe 3 nodes, the sheet has 4".to_string()));
    // h(h(h(a))) and f(h(a), a) have four nodes each.
    let chain = [Drawn::Twice { j: 0, k: 0 }, Drawn::Twice { j: 0, k: 1 }];
    let told = Described::of(&chain).check(&facts(2, 1));
    assert!(told.is_err_and(|told| told.contains("another tree")));
}

#[test]
fn two_implementations_agree() {
    for first in first_numbers() {
        for m in 0..=22 {
            let (mut slice, mut length) = ([0; 1832], 0);
            let code = Idiomatic.practice(first, m, &like_w(), &mut slice, &mut length);
            let found = if code == 0 { Ok(slice[..length].to_vec()) } else { Err(Refusal(code)) };
            assert_eq!(found, sheet(first, m, &like_w()), "{first} {m}");
        }
    }
}
