//! The sheets that are generated reach both ends of what making and marking ask for, and take their
//! sums from everywhere that cleaning does not leave.

use compare::calls::Engine;
use compare::generate::random::Random;
use compare::generate::sheets;
use compare::harness::named_room::LARGEST;
use compare::idiomatic::Idiomatic;
use compare::reference::head::{LONGEST_FORM, rules_behind};
use compare::reference::presence::Presence;
use compare::reference::sheet::Sheet;
use compare::reference::term::Term;
use std::sync::LazyLock;

/// A sheet with its sum and with what else may be taken for it.
struct Known {
    nodes: usize,
    sum: usize,
    /// The shares of dropped arguments, and of rules that are never called.
    of_dropped: usize,
    of_never_called: usize,
    /// What the calls count for parameters that are absent from what they call.
    of_absent: usize,
    /// The ranks of what is called.
    called: Vec<usize>,
    /// The rules of the form that is made.
    made: usize,
}

static GENERATED: LazyLock<Vec<Known>> =
    LazyLock::new(|| (0..4000).map(|case| known(Random::of_case(12, case))).collect());

fn known(mut random: Random) -> Known {
    let bytes = sheets::plan(&mut random).sheet();
    let sheet = Sheet::read(&bytes).unwrap_or_else(|refusal| panic!("{refusal:?}"));
    let presence = Presence::of(&sheet.rules);
    let called = sheet.called_from_start();
    let mut known = Known {
        nodes: sheet.node_count(),
        sum: sheet.rule_bound(),
        of_dropped: 0,
        of_never_called: 0,
        of_absent: 0,
        called: Vec::new(),
        made: made(&bytes),
    };
    for (number, rule) in sheet.rules.iter().enumerate() {
        for node in rule.right.nodes() {
            let share = sheet.node_bound(node);
            known.of_dropped += if presence.stands(&rule.right, node) { 0 } else { share };
            known.of_never_called += if called[number] { 0 } else { share };
            if let Term::Call(lower, arguments) = node {
                let present = |place: &usize| presence.is_present(*lower, *place);
                let left = (0..arguments.len()).filter(present).count();
                known.of_absent += share - by_rank(left);
                known.called.push(arguments.len());
            }
        }
    }
    known
}

/// What a call of a rule of this rank counts.
fn by_rank(rank: usize) -> usize {
    (4 * rank).saturating_sub(3)
}

fn made(sheet: &[u8]) -> usize {
    let (mut form, mut written) = ([0; LONGEST_FORM], 0);
    assert_eq!(Idiomatic.make_form(sheet, &mut form, &mut written), 0);
    rules_behind(&form[..written])
}

/// How many sheets there are for which this holds.
fn times(holds: impl Fn(&Known) -> bool) -> usize {
    GENERATED.iter().filter(|known| holds(known)).count()
}

#[test]
fn sums_lie_between_their_ends() {
    assert!(GENERATED.iter().all(|known| (2..=LARGEST).contains(&known.sum)));
    assert!(GENERATED.iter().all(|known| known.sum <= 16 * known.nodes));
    assert!(times(|known| known.sum == LARGEST) > 5);
    assert!(times(|known| known.sum > 580) > 50);
    assert!(times(|known| known.sum > 400) > 150);
    assert!(times(|known| known.sum == 2 && known.nodes == 1) > 5);
    assert!(times(|known| known.sum == 2 && known.nodes == 64) > 5);
}

#[test]
fn calls_of_each_rank_and_of_rank_0_only() {
    for rank in 0..=4 {
        assert!(times(|known| known.called.contains(&rank)) > 300, "{rank}");
        let only = |known: &Known| known.called.iter().all(|called| *called == rank);
        assert!(times(|known| !known.called.is_empty() && only(known)) > 50, "{rank}");
    }
}

#[test]
fn sums_that_cleaning_would_lower() {
    let most_of = |share: fn(&Known) -> usize| times(|known| 2 * share(known) > known.sum);
    assert!(most_of(|known| known.of_dropped) > 200);
    assert!(most_of(|known| known.of_never_called) > 200);
    assert!(most_of(|known| known.of_absent) > 50);
    assert!(times(|known| known.of_never_called > 500) > 10);
    assert!(times(|known| known.of_dropped > 400) > 20);
    assert!(times(|known| known.of_absent > 250) > 20);
    let as_it_is = |known: &Known| known.of_dropped + known.of_never_called + known.of_absent == 0;
    assert!(times(as_it_is) > 500);
}

#[test]
fn forms_far_below_the_sum_and_near_it() {
    assert!(GENERATED.iter().all(|known| known.made <= known.sum));
    assert!(times(|known| 20 * known.made < known.sum) > 100);
    assert!(times(|known| known.made == 1 && known.sum > 400) > 10);
    assert!(times(|known| 10 * known.made > 9 * known.sum) > 20);
    assert!(times(|known| known.made > 340) > 5);
}
