//! The forms that are generated, and the alphabets and automata beside them, come to every case
//! that the calls on a form tell apart.

use compare::generate::form_inputs::{FormInput, input};
use compare::generate::forms::uses;
use compare::generate::random::Random;
use compare::reference::calls;
use compare::reference::form::Form;
use compare::reference::head::{LONGEST_FORM, TERMINALS_AT, end, ranks, rules_behind, word};
use compare::refusal::Refusal;
use std::sync::LazyLock;

/// An input with what is said of its alphabet and form, whatever is lent, and what evaluation says
/// with a slice that suffices: 0 for an answer.
struct Known {
    input: FormInput,
    code: u8,
    code_of_evaluation: u8,
}

static GENERATED: LazyLock<Vec<Known>> = LazyLock::new(|| {
    let inputs = (0..10_000).map(|case| input(&mut Random::of_case(8, case)));
    inputs.map(known).collect()
});

fn known(input: FormInput) -> Known {
    let FormInput { alphabet, form, .. } = &input;
    let code = told(calls::read_rule(alphabet, form, 0).err());
    let code_of_evaluation = evaluated(alphabet, &input);
    Known { input, code, code_of_evaluation }
}

/// What evaluation says of the input with this alphabet.
fn evaluated(alphabet: &[u8], input: &FormInput) -> u8 {
    let mut relations = vec![0; rules_behind(&input.form)];
    told(calls::evaluate(alphabet, &input.automaton, &input.form, &mut relations).err())
}

fn told(refusal: Option<Refusal>) -> u8 {
    refusal.map_or(0, |Refusal(number)| number)
}

/// How often there is an input of this code for which this holds.
fn times(wanted: u8, holds: impl Fn(&FormInput) -> bool) -> usize {
    GENERATED.iter().filter(|known| known.code == wanted && holds(&known.input)).count()
}

/// The ranks in the head, where it is whole.
fn own(input: &FormInput) -> &[u8] {
    ranks(&input.form).unwrap_or_default()
}

#[test]
fn valid_forms_at_both_ends() {
    assert!(times(0, |_| true) > 2000);
    for terminals in [1, 2, 31, 32] {
        assert!(times(0, |input| own(input).len() == terminals) > 20, "{terminals}");
    }
    for rules in [1, 2047, 2048] {
        assert!(times(0, |input| rules_behind(&input.form) == rules) > 20, "{rules}");
    }
    assert!(times(0, |input| input.form.len() == LONGEST_FORM) > 0);
}

/// The terminals that both alphabets have and whose ranks differ.
fn differing(input: &FormInput) -> Vec<u8> {
    let both = input.alphabet.iter().zip(own(input)).enumerate();
    both.filter(|(_, (given, own))| given != own).map(|(terminal, _)| terminal as u8).collect()
}

#[test]
fn alphabets_of_other_lengths() {
    let with = |holds: &dyn Fn(usize, usize) -> bool| {
        let of = |input: &FormInput| holds(input.alphabet.len(), own(input).len());
        times(28, |input| differing(input).is_empty() && of(input))
    };
    assert!(with(&|given, own| given == own + 1) > 50);
    assert!(with(&|given, own| given + 1 == own) > 50);
    assert!(with(&|given, own| given == 32 && own < 31) > 50);
    assert!(with(&|given, own| given == 1 && own > 2) > 50);
}

#[test]
fn alphabets_of_other_ranks() {
    let same_length = |input: &FormInput| input.alphabet.len() == own(input).len();
    let one = |used: bool| {
        move |input: &FormInput| match differing(input)[..] {
            [terminal] => same_length(input) && uses(&input.form, terminal) == used,
            _ => false,
        }
    };
    assert!(times(28, one(true)) > 50);
    assert!(times(28, one(false)) > 50);
    for length in [2, 32] {
        let last = |input: &FormInput| {
            own(input).len() == length && differing(input) == [length as u8 - 1]
        };
        assert!(times(28, |input| same_length(input) && last(input)) > 0, "{length}");
    }
    let sorted = |ranks: &[u8]| {
        let mut sorted = ranks.to_vec();
        sorted.sort_unstable();
        sorted
    };
    assert!(times(28, |input| sorted(&input.alphabet) == sorted(own(input))) > 50);
}

/// Whether the form is valid when it carries the given alphabet before the bytes from this place
/// on.
fn is_valid_carrying(input: &FormInput, place: usize) -> bool {
    let (given, form) = (&input.alphabet, &input.form);
    let (Some(head), Some(rules)) = (form.get(..TERMINALS_AT), form.get(place..)) else {
        return false;
    };
    Form::read(&[head, &[given.len() as u8], given, rules].concat()).is_ok()
}

#[test]
fn forms_that_one_of_the_alphabets_fits_or_both() {
    let fits_given = |input: &FormInput| is_valid_carrying(input, end(&input.form));
    assert!(times(28, fits_given) > 50);
    assert!(times(28, |input| !fits_given(input)) > 50);
    assert!(times(18, fits_given) > 50);
    assert!(times(18, |input| is_valid_carrying(input, TERMINALS_AT)) > 20, "saved before R-5");
}

#[test]
fn damaged_heads_of_every_kind() {
    for terminals in [0, 1, 32, 33, 34, 255] {
        assert!(
            times(18, |input| input.form.get(TERMINALS_AT) == Some(&terminals)) > 5,
            "{terminals}"
        );
    }
    let over_4 = |used: bool| {
        move |input: &FormInput| {
            let mut over = (0..).zip(own(input)).filter(|(_, rank)| **rank > 4);
            own(input).len() <= 32 && over.any(|(terminal, _)| uses(&input.form, terminal) == used)
        }
    };
    assert!(times(18, over_4(true)) > 20);
    assert!(times(18, over_4(false)) > 20);
    for by in [-12, -1, 1] {
        let off = |input: &FormInput| {
            let fits = end(&input.form) + 12 * usize::from(word(&input.form, 0));
            fits.checked_add_signed(by) == Some(input.form.len())
        };
        assert!(times(18, |input| input.form.len() > TERMINALS_AT && off(input)) > 20, "{by}");
    }
}

#[test]
fn what_evaluation_tells_first() {
    let times_of = |first: u8| {
        let told_first = GENERATED.iter().filter(move |known| known.code_of_evaluation == first);
        told_first.map(|known| Form::read(&known.input.form).is_ok())
    };
    for first in [3, 4, 14, 15, 16] {
        assert!(times_of(first).filter(|valid| *valid).count() > 20, "{first} before 28");
        assert!(times_of(first).filter(|valid| !*valid).count() > 20, "{first} before 18");
    }
    for code in [0, 18, 28] {
        assert!(times_of(code).count() > 500, "{code}");
    }
    // The automaton is lawful for the alphabet given, and would not be for the form's own.
    let other = |known: &&Known| {
        known.code_of_evaluation == 28 && evaluated(own(&known.input), &known.input) == 16
    };
    assert!(GENERATED.iter().filter(other).count() > 50);
}
