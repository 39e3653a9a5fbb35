//! R-6 by the reference: the sums of its examples, what making and marking ask for by them, and what
//! is told of shorter slices.

use compare::calls::FixedCalls;
use compare::generate::random::Random;
use compare::generate::{damage, sheets};
use compare::harness::named_room::{LARGEST, ROOMS, largest};
use compare::harness::named_wide::{OF_W, sheet};
use compare::hex::bytes;
use compare::reference::facts::Facts;
use compare::reference::fixed_calls::Reference;
use compare::reference::{calls, making, marking};
use compare::refusal::{Answer, Refusal};
use compare::rows;

/// What the places of the results hold that no call has written to.
const HELD: [usize; 2] = [0xA5A5, 0x5A5A];

/// The code, the bytes and the numbers.
fn room(sheet: &[u8]) -> (u8, [usize; 2]) {
    let [mut form_bytes, mut numbers] = HELD;
    let code = Reference.room(sheet, &mut form_bytes, &mut numbers);
    (code, [form_bytes, numbers])
}

/// What making says of a slice of so many bytes.
fn made(facts: &Answer<Facts>, bytes: usize) -> Option<Refusal> {
    making::allowed(facts, bytes).err()
}

/// What marking says of slices of so many bytes and numbers.
fn marked(facts: &Answer<Facts>, bytes: usize, numbers: usize) -> Option<Refusal> {
    marking::allowed_by_sheet(facts, bytes, numbers).err()
}

/// Whether the sheet's sum is this one, over three terminals, and 17 and 19 follow.
fn asks_by_sum(sheet: &[u8], sum: usize) {
    let bytes = 5 + 3 + 12 * sum;
    assert_eq!(room(sheet), (0, [bytes, sum]));
    let facts = Facts::of(sheet);
    assert_eq!((made(&facts, bytes), made(&facts, bytes - 1)), (None, Some(Refusal(17))));
    assert_eq!(marked(&facts, bytes, sum), None);
    assert_eq!(marked(&facts, bytes, sum - 1), Some(Refusal(19)));
    assert_eq!(marked(&facts, bytes - 1, sum), Some(Refusal(17)));
    assert_eq!(marked(&facts, bytes - 1, sum - 1), Some(Refusal(17)));
}

#[test]
fn the_examples() {
    for (rules, sum) in ROOMS {
        asks_by_sum(&sheet(rules, OF_W), sum);
    }
    asks_by_sum(&sheet(&largest(), OF_W), LARGEST);
    asks_by_sum(&rows::sheet("K7 h doubled ten times, on a"), 25);
    asks_by_sum(&rows::sheet("K10 127 h over a"), 256);
    asks_by_sum(&rows::sheet("6 not given, 64 times 00 01 00"), 128);
}

#[test]
fn w_and_a_alone() {
    assert_eq!(room(&rows::sheet("K1 W")), (0, [212, 17]));
    assert_eq!(room(&rows::sheet("K4 only rule 00 01 00")), (0, [32, 2]));
    let facts = Facts::of(&rows::sheet("K4 only rule 00 01 00"));
    assert_eq!((made(&facts, 31), made(&facts, 32)), (Some(Refusal(17)), None));
    assert_eq!((marked(&facts, 32, 1), marked(&facts, 32, 2)), (Some(Refusal(19)), None));
}

#[test]
fn the_alphabet_counts_with_each_terminal() {
    for terminals in [1, 2, 31, 32] {
        let sheet = calls::joined(&[&vec![0; terminals], &[0, 1, 0], &[1, 1]]);
        assert_eq!(room(&sheet), (0, [5 + terminals + 24, 2]));
    }
}

#[test]
fn a_form_that_is_smaller_asks_for_no_less() {
    // The form is a alone: 20 bytes and one relation.
    let facts = Facts::of(&sheet("04 01 80, 00 05 40 00 00 00 00", OF_W));
    let form = bytes("0100 0000 | 03 00 02 01 | 00 00 00 00 FFFF FFFF FFFF FFFF");
    assert_eq!(making::check(facts.as_ref().expect("a lawful sheet"), &form), Ok(()));
    for bytes in [20, 21, 100, 259] {
        assert_eq!(made(&facts, bytes), Some(Refusal(17)));
        assert_eq!(marked(&facts, bytes, 21), Some(Refusal(17)));
    }
    for numbers in [1, 2, 20] {
        assert_eq!(marked(&facts, 260, numbers), Some(Refusal(19)));
    }
    assert_eq!(calls::evaluate(&[0, 2, 1], &bytes(OF_W), &form, &mut [0; 1]), Ok(1));
}

#[test]
fn a_form_may_have_no_more_rules_than_the_sum() {
    let facts = Facts::of(&sheet("00 01 00", OF_W)).expect("a lawful sheet");
    let form = |count: u8| {
        let head = [count, 0, count - 1, 0, 3, 0, 2, 1];
        let leaf = bytes("00 00 00 00 FFFF FFFF FFFF FFFF");
        [&head[..], &leaf.repeat(count.into())].concat()
    };
    assert_eq!(making::check(&facts, &form(1)), Ok(()));
    let told = |count: u8| making::check(&facts, &form(count)).expect_err("too many rules");
    assert!(told(2).contains("stands for no part of the tree"), "{}", told(2));
    assert_eq!(told(3), "3 rules, but 2 are the most");
    assert_eq!(told(17), "17 rules, but 16 are the most");
}

#[test]
fn refusals_are_those_of_the_sheet_and_leave_both_results() {
    let mut refusals = [0; 17];
    for case in 0..4000 {
        let mut random = Random::of_case(6, case);
        let plan = sheets::plan(&mut random);
        let sheet = damage::damaged(&mut random, &plan);
        let (code, found) = room(&sheet);
        assert_eq!(code, Facts::of(&sheet).err().map_or(0, |Refusal(number)| number));
        assert_eq!(found == HELD, code != 0);
        refusals[usize::from(code)] += 1;
    }
    for (code, times) in refusals.into_iter().enumerate() {
        assert_eq!(times > 0, code != 12, "{code}");
    }
}
