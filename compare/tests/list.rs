//! The laws of a list of markings: each tells of a list that breaks it, and the reference keeps
//! them, also where counts fill up.

use compare::generate::random::Random;
use compare::harness::list::{Answered, List};
use compare::reference::facts::Facts;
use compare::reference::marking;
use compare::reference::tally::{Tally, ZERO};
use compare::refusal::{Answer, Refusal};
use compare::rows;

/// The zero tally but for the counts of candidate 3.
fn third(counts: [u32; 3]) -> Tally {
    let mut tally = ZERO;
    tally[3] = counts;
    tally
}

/// What a list says of its first marking, of candidate 3.
fn first(by_sheet: Answer<&Facts>, code: u8, tally: Tally) -> Result<(), String> {
    List::new().add(&Answered { candidate: 3, by_sheet, code, verdict: 1, tally })
}

/// Whether the list is told of with these words.
fn told(answer: Result<(), String>, words: &str) -> bool {
    answer.is_err_and(|told| told.contains(words))
}

#[test]
fn a_lawful_answer() {
    assert_eq!(first(Err(Refusal(5)), 5, third([0, 0, 1])), Ok(()));
    assert_eq!(first(Err(Refusal(17)), 17, ZERO), Ok(()));
}

#[test]
fn a_count_that_is_not_that_of_the_answers() {
    assert!(told(first(Err(Refusal(5)), 5, ZERO), "the answers of 3 are [0, 0, 1]"));
    assert!(told(first(Err(Refusal(17)), 17, third([0, 0, 1])), "the answers of 3 are [0, 0, 0]"));
}

#[test]
fn a_sum_that_is_not_that_of_the_calls() {
    assert!(told(first(Err(Refusal(5)), 26, ZERO), "the counts of 3 sum to 0, not 1"));
}

#[test]
fn old_totals_that_are_not_the_sums() {
    assert!(told(first(Err(Refusal(17)), 5, third([0, 0, 1])), "the old totals are [0, 0, 0]"));
}

#[test]
fn another_candidate_s_count_that_moves() {
    let mut tally = third([0, 0, 1]);
    tally[4] = [0, 1, 0];
    assert!(told(first(Err(Refusal(5)), 5, tally), "a marking of 3 took the counts of 4"));
    let call = Answered { candidate: 16, by_sheet: Err(Refusal(5)), code: 26, verdict: 0, tally };
    assert!(told(List::new().add(&call), "a marking of 16 took the counts of 3"));
}

#[test]
fn the_reference_keeps_the_laws_where_counts_fill_up() {
    let sheets = [rows::sheet("K1 W"), rows::sheet("K2 b33=02"), Vec::new()];
    let facts = sheets.map(|sheet| Facts::of(&sheet));
    let mut random = Random::new(3);
    for way in 0..3 {
        let mut near = ZERO;
        (near[0][way], near[1][way]) = (u32::MAX - 5, 2);
        let mut list = List::after(near);
        let mut refusals = Vec::new();
        for _ in 0..2000 {
            let (candidate, facts) = (random.below(17), random.pick(&facts));
            let (form, relations) = (random.between(211, 212), random.between(16, 17));
            let answer = marking::allowed(list.tally(), candidate, facts, form, relations);
            let call = Answered {
                candidate,
                by_sheet: marking::allowed_by_sheet(facts, form, relations),
                code: answer.err().map_or(0, |Refusal(number)| number),
                verdict: answer.is_ok_and(Facts::accepted).into(),
                tally: marking::tally_after(*list.tally(), candidate, answer),
            };
            assert_eq!(list.add(&call), Ok(()));
            refusals.push(call.code);
        }
        // The old totals were full long before candidate 0 was.
        assert!(list.totals().are_full() && list.tally()[0][way] == u32::MAX);
        assert!([0, 1, 17, 19, 25, 26].iter().all(|code| refusals.contains(code)));
    }
}
