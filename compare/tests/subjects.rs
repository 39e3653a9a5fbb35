//! The sheets and the added transitions of the benchmark are what their names say.

use compare::bench::adding;
use compare::bench::subjects::{Subject, subjects};
use compare::limits::MOST_TRANSITIONS;
use compare::reference::calls;
use compare::reference::facts::Facts;
use compare::reference::form::fields;
use compare::reference::rules::Rule;

fn facts(name: &str) -> Facts {
    let named = |subject: &Subject| subject.name == name;
    let subject = subjects().into_iter().find(named).expect("a subject of that name");
    Facts::of(&subject.sheet).expect("a lawful sheet")
}

#[test]
fn small_ones() {
    assert_eq!(facts("W").whole.length, 7);
    assert_eq!(facts("K7").whole.length, 1025);
}

#[test]
fn largest() {
    let largest = facts("largest").sheet;
    assert_eq!(largest.node_count(), 128);
    assert_eq!(
        (largest.automaton.states, largest.automaton.transitions.len()),
        (8, MOST_TRANSITIONS)
    );
}

#[test]
fn nested() {
    let nested = facts("rank 4 nested").sheet;
    assert_eq!(nested.rules.iter().filter(|rule| rule.rank == 4).count(), 12);
}

#[test]
fn forty_rules() {
    let forty = facts("forty rules");
    assert_eq!(forty.sheet.rules.len(), 40);
    assert!(forty.whole.length > 200_000_000_000);
}

#[test]
fn handed_down() {
    let handed_down = facts("handed down");
    assert_eq!((handed_down.sheet.node_count(), handed_down.mask), (127, 1));
    assert_eq!(handed_down.whole.length, (1 << 25) + 1);
    let drops = |rule: &Rule| !rule.right.nodes().iter().any(|node| node.is_parameter(1));
    assert!(handed_down.sheet.rules.iter().filter(|rule| rule.rank == 2).any(drops));
}

#[test]
fn trees_of_4096_nodes() {
    for name in ["chain of 4,096", "binary of 4,096"] {
        assert_eq!(facts(name).whole.length, 4096, "{name}");
    }
}

#[test]
fn added_transitions() {
    let expected =
        [("few depend", 20..100), ("half depend", 900..1150), ("most depend", 1500..2048)];
    for (subject, (name, redone)) in adding::subjects().into_iter().zip(expected) {
        let [rules, found] = subject.counts();
        assert_eq!((subject.name, rules), (name, 2048));
        assert!(redone.contains(&found), "{name}: {found}");
        let addition = &subject.addition;
        assert_eq!(addition.automaton.len(), 2 + 6 * (MOST_TRANSITIONS - 1));
        for kind in 0..4 {
            let of_kind = (0..rules).filter(|&number| fields(&addition.form, number)[0] == kind);
            assert!(of_kind.count() > 200, "{name}: {kind}");
        }
        let mut relations = vec![0; rules];
        let (alphabet, form) = (&addition.alphabet, &addition.form);
        let mask = calls::evaluate(alphabet, &addition.automaton, form, &mut relations);
        assert!(mask.is_ok());
        let with_bits = relations.iter().filter(|relation| **relation != 0).count();
        assert!(with_bits > 1000, "{name}: {with_bits}");
    }
}
