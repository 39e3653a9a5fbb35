//! The table of times.

use super::adding;
use super::lesson;
use super::practice;
use super::subjects::Subject;
use super::timing::best;
use crate::calls::Engine;
use crate::generate::additions::Addition;
use crate::idiomatic::Idiomatic;
use crate::reference::blackboard::TABLE;
use crate::reference::facts::Facts;
use crate::reference::sheet::Sheet;
use crate::reference::tally::COUNTS;
use crate::reference::theorem;
use std::hint::black_box;

/// The candidate whose markings are timed.
const CANDIDATE: usize = 11;

/// All ways are timed in turns, so that a slow spell of the machine falls on all.
pub const ROUNDS: usize = 5;

#[derive(Clone, Copy)]
enum Call {
    Mark,
    MakeForm,
    Room,
    Evaluate,
    Blackboard,
    Label,
    Unfold,
    Walk,
}

impl Call {
    fn name(self) -> &'static str {
        match self {
            Call::Mark => "mark",
            Call::MakeForm => "make form",
            Call::Room => "room",
            Call::Evaluate => "evaluate",
            Call::Blackboard => "blackboard",
            Call::Label => "label",
            Call::Unfold => "unfold",
            Call::Walk => "walk",
        }
    }
}

/// A sheet with what its calls read.
struct Prepared {
    sheet: Vec<u8>,
    facts: Facts,
    form: Vec<u8>,
}

impl Prepared {
    /// The last transition of the sheet's automaton, to be added to those before it.
    fn last_added(&self) -> Addition {
        let (alphabet, automaton) =
            (&self.facts.sheet.alphabet_body, &self.facts.sheet.automaton_body);
        let (before, last) = automaton.split_at(automaton.len() - 6);
        let [alphabet, form, automaton, transition] =
            [alphabet, &self.form, before, last].map(<[u8]>::to_vec);
        Addition { alphabet, form, automaton, transition }
    }
}

/// One line for each sheet and call, and one for a practice sheet: microseconds, and the engine's
/// time over the other way's. Behind it come the table for a lesson and that of added transitions.
pub fn print(engine: &dyn Engine, subjects: &[Subject]) {
    println!(
        "{:16} {:10} {:>12} {:>12} {:>7} {:>14} {:>9}",
        "sheet", "call", "engine us", "idiomatic us", "ratio", "theorem 1 us", "ratio"
    );
    let rows: Vec<_> = subjects.iter().map(|subject| print_sheet(engine, subject)).collect();
    let (_, columns) = beside(engine, "practice", practice::time);
    println!("{:16} {columns}", practice::NAME);
    println!();
    lesson::print(&rows);
    println!();
    adding::print(engine);
}

/// Prints the lines of a sheet. What they say of the engine is its row in the table for a lesson.
fn print_sheet(engine: &dyn Engine, subject: &Subject) -> lesson::Row {
    let prepared = prepare(engine, subject);
    let print = |call| {
        let (ours, line) = line(engine, &prepared, call);
        println!("{:16} {line}", subject.name);
        ours
    };
    let mark = print(Call::Mark);
    let make_form = print(Call::MakeForm);
    print(Call::Room);
    let evaluate = print(Call::Evaluate);
    let addition = prepared.last_added();
    let (_, added) = beside(engine, "add", |engine| adding::time(engine, &addition));
    println!("{:16} {added}", subject.name);
    let blackboard = print(Call::Blackboard);
    print(Call::Label);
    if prepared.facts.whole.length == 4096 {
        print(Call::Unfold);
        print(Call::Walk);
    }
    let rules = prepared.facts.sheet.rules.len();
    lesson::Row { sheet: subject.name, rules, make_form, evaluate, mark, blackboard }
}

/// The engine's time, and the columns of a line.
fn line(engine: &dyn Engine, prepared: &Prepared, call: Call) -> (f64, String) {
    let (ours, mut line) = beside(engine, call.name(), |engine| time(engine, prepared, call));
    if let Some(other) = theorem_time(prepared, call) {
        line += &format!(" {other:14.3} {:9.4}", ours / other);
    }
    (ours, line)
}

/// The engine's time, and the columns of it beside idiomatic Rust.
fn beside(engine: &dyn Engine, call: &str, time: impl Fn(&dyn Engine) -> f64) -> (f64, String) {
    let (mut ours, mut theirs) = (f64::INFINITY, f64::INFINITY);
    for _ in 0..ROUNDS {
        ours = ours.min(time(engine));
        theirs = theirs.min(time(&Idiomatic));
    }
    (ours, format!("{call:10} {ours:12.3} {theirs:12.3} {:7.2}", ours / theirs))
}

/// The form is the engine's, for both.
fn prepare(engine: &dyn Engine, subject: &Subject) -> Prepared {
    let sheet = subject.sheet.clone();
    let facts = Facts::of(&sheet).expect("a lawful sheet");
    let (mut form, mut written) = (vec![0; facts.sheet.form_need()], 0);
    assert_eq!(engine.make_form(&sheet, &mut form, &mut written), 0);
    form.truncate(written);
    Prepared { sheet, facts, form }
}

fn time(engine: &dyn Engine, prepared: &Prepared, call: Call) -> f64 {
    let Prepared { sheet, facts, form } = prepared;
    let (alphabet, automaton) = (&facts.sheet.alphabet_body, &facts.sheet.automaton_body);
    let mut bytes = vec![0; facts.sheet.form_need().max(4096)];
    let mut numbers = vec![0; facts.sheet.relations_need().max(form.len())];
    let mut tables = vec![0; TABLE * facts.sheet.rules.len()];
    let mut tally = [0; COUNTS];
    let (mut length, mut asked, mut verdict, mut mask) = (0, 0, 0, 0);
    let tree = facts.tree.as_deref().unwrap_or_default();
    let position = facts.whole.length / 3 * 2;
    best(|| {
        let code = match call {
            Call::Mark => engine.mark(
                sheet,
                &mut bytes,
                &mut numbers,
                CANDIDATE,
                &mut tally,
                &mut verdict,
                &mut mask,
            ),
            Call::MakeForm => engine.make_form(sheet, &mut bytes, &mut length),
            Call::Room => engine.room(sheet, &mut length, &mut asked),
            Call::Evaluate => engine.evaluate(alphabet, automaton, form, &mut numbers, &mut mask),
            Call::Blackboard => engine.blackboard(sheet, &mut tables, &mut mask),
            Call::Label => engine.label(alphabet, form, position, &mut numbers, &mut mask),
            Call::Unfold => engine.unfold(alphabet, form, &mut numbers, &mut bytes, &mut length),
            Call::Walk => engine.walk(alphabet, automaton, tree, &mut bytes, &mut mask),
        };
        assert_eq!(code, 0);
        black_box((&bytes, &numbers, &tables, &tally, length, asked, verdict, mask));
    })
}

/// Theorem 1 gives the mask from the sheet's bytes, or from a sheet already read.
fn theorem_time(prepared: &Prepared, call: Call) -> Option<f64> {
    let read = &prepared.facts.sheet;
    match call {
        Call::Mark | Call::Blackboard => Some(best(|| {
            let sheet = Sheet::read(black_box(&prepared.sheet)).expect("a lawful sheet");
            black_box(theorem::mask(&sheet.automaton, &sheet.rules));
        })),
        Call::Evaluate => Some(best(|| {
            black_box(theorem::mask(&read.automaton, &read.rules));
        })),
        _ => None,
    }
}
