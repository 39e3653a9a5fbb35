//! The thirteen calls over the parts of this module.

use super::adding::{add, longer};
use super::alphabet::Alphabet;
use super::automaton::Automaton;
use super::blackboard::{TABLE, blackboard};
use super::counts::{counts, label, lend};
use super::evaluation::evaluate;
use super::form::{Form, fields};
use super::making;
use super::marking::mark;
use super::practice::practice;
use super::sheet::{Rule, Sheet};
use super::unfolding::Unfolder;
use super::walking::{self, Walker};
use super::wrapping;
use crate::calls::{Engine, FixedCalls};
use crate::refusal::{Answer, Refusal, settle};

pub struct Idiomatic;

fn made(sheet: &[u8], form: &mut [u8]) -> Answer<usize> {
    let sheet = Sheet::read(sheet)?;
    if form.len() < sheet.form_need() {
        return Err(Refusal(17));
    }
    Ok(making::form(&sheet).write(form))
}

/// Writes the form of a sheet into a slice that has room for it, and answers its length. Cleaning
/// leaves each rule with the parameters that are told, so that wrong ones can be planted.
pub fn form_by(
    sheet: &[u8],
    present_in: impl Fn(&Rule, &[u8]) -> u8,
    form: &mut [u8],
) -> Answer<usize> {
    Ok(making::form_by(&Sheet::read(sheet)?, present_in).write(form))
}

fn evaluated(alphabet: &[u8], automaton: &[u8], form: &[u8], relations: &mut [u64]) -> Answer<u8> {
    let alphabet = Alphabet::read(alphabet)?;
    let automaton = Automaton::read(alphabet, automaton)?;
    let form = Form::read(alphabet, form)?;
    if relations.len() < form.rules.len() {
        return Err(Refusal(19));
    }
    Ok(evaluate(&automaton, &form, relations))
}

fn added(
    alphabet: &[u8],
    form: &[u8],
    automaton: &[u8],
    transition: &[u8],
    relations: &mut [u64],
) -> Answer<u8> {
    let alphabet = Alphabet::read(alphabet)?;
    let (automaton, terminal) = longer(alphabet, automaton, transition)?;
    let form = Form::read(alphabet, form)?;
    if relations.len() < form.rules.len() {
        return Err(Refusal(19));
    }
    Ok(add(&automaton, terminal, &form, relations))
}

fn unfolded(alphabet: &[u8], form: &[u8], lent: &mut [u64], tree: &mut [u8]) -> Answer<usize> {
    let form = Form::read(Alphabet::read(alphabet)?, form)?;
    let counts = counts(&form, lent)?;
    let size = counts[usize::from(form.start)].nodes;
    if size > tree.len() as u64 {
        return Err(Refusal(20));
    }
    Unfolder { form: &form, counts: &counts, tree }.write(form.start, 0, 0);
    lend(&counts, lent);
    Ok(size as usize)
}

fn sized(alphabet: &[u8], form: &[u8], lent: &mut [u64]) -> Answer<u64> {
    let form = Form::read(Alphabet::read(alphabet)?, form)?;
    let counts = counts(&form, lent)?;
    lend(&counts, lent);
    Ok(counts[usize::from(form.start)].nodes)
}

fn labelled(alphabet: &[u8], form: &[u8], position: u64, lent: &mut [u64]) -> Answer<u8> {
    let form = Form::read(Alphabet::read(alphabet)?, form)?;
    let counts = counts(&form, lent)?;
    if position >= counts[usize::from(form.start)].nodes {
        return Err(Refusal(21));
    }
    lend(&counts, lent);
    Ok(label(&form, &counts, position))
}

fn read(alphabet: &[u8], bytes: &[u8], number: usize) -> Answer<[u16; 7]> {
    let (_, rows) = Form::open(Alphabet::read(alphabet)?, bytes)?;
    rows.get(number).map(fields).ok_or(Refusal(21))
}

fn walked(alphabet: &[u8], automaton: &[u8], tree: &[u8], masks: &mut [u8]) -> Answer<u8> {
    let alphabet = Alphabet::read(alphabet)?;
    let automaton = Automaton::read(alphabet, automaton)?;
    walking::check(alphabet, tree, 4096)?;
    if masks.len() < tree.len() {
        return Err(Refusal(19));
    }
    Walker { alphabet, automaton: &automaton, tree, masks }.node(0);
    Ok(masks[0])
}

fn wrapped(alphabet: &[u8], tree: &[u8], automaton: &[u8], sheet: &mut [u8]) -> Answer<usize> {
    let ranks = Alphabet::read(alphabet)?;
    walking::check(ranks, tree, 128)?;
    Automaton::check(ranks, automaton)?;
    wrapping::wrap(alphabet, tree, automaton, sheet)
}

/// The bytes and the numbers that making and marking ask for.
fn asked(sheet: &[u8]) -> Answer<(usize, usize)> {
    let sheet = Sheet::read(sheet)?;
    Ok((sheet.form_need(), sheet.most_rules))
}

/// The mask by the tables of the rules.
fn tabled(sheet: &[u8], table: &mut [u8]) -> Answer<u8> {
    let sheet = Sheet::read(sheet)?;
    if table.len() < TABLE * sheet.rules.len() {
        return Err(Refusal(19));
    }
    Ok(blackboard(&sheet, table))
}

impl FixedCalls for Idiomatic {
    fn evaluate(
        &self,
        alphabet: &[u8],
        automaton: &[u8],
        form: &[u8],
        relations: &mut [u64],
        mask: &mut u8,
    ) -> u8 {
        settle(evaluated(alphabet, automaton, form, relations), mask)
    }

    fn add_transition(
        &self,
        alphabet: &[u8],
        form: &[u8],
        automaton: &[u8],
        transition: &[u8],
        relations: &mut [u64],
        mask: &mut u8,
    ) -> u8 {
        settle(added(alphabet, form, automaton, transition, relations), mask)
    }

    fn unfold(
        &self,
        alphabet: &[u8],
        form: &[u8],
        counts: &mut [u64],
        tree: &mut [u8],
        length: &mut usize,
    ) -> u8 {
        settle(unfolded(alphabet, form, counts, tree), length)
    }

    fn size(&self, alphabet: &[u8], form: &[u8], counts: &mut [u64], size: &mut u64) -> u8 {
        settle(sized(alphabet, form, counts), size)
    }

    fn label(
        &self,
        alphabet: &[u8],
        form: &[u8],
        position: u64,
        counts: &mut [u64],
        terminal: &mut u8,
    ) -> u8 {
        settle(labelled(alphabet, form, position, counts), terminal)
    }

    fn read_rule(&self, alphabet: &[u8], form: &[u8], number: usize, rule: &mut [u16; 7]) -> u8 {
        settle(read(alphabet, form, number), rule)
    }

    fn walk(
        &self,
        alphabet: &[u8],
        automaton: &[u8],
        tree: &[u8],
        masks: &mut [u8],
        mask: &mut u8,
    ) -> u8 {
        settle(walked(alphabet, automaton, tree, masks), mask)
    }

    fn wrap(
        &self,
        alphabet: &[u8],
        tree: &[u8],
        automaton: &[u8],
        sheet: &mut [u8],
        length: &mut usize,
    ) -> u8 {
        settle(wrapped(alphabet, tree, automaton, sheet), length)
    }

    fn practice(
        &self,
        first: u32,
        m: usize,
        automaton: &[u8],
        sheet: &mut [u8],
        length: &mut usize,
    ) -> u8 {
        settle(practice(first, m, automaton, sheet), length)
    }

    fn room(&self, sheet: &[u8], form_bytes: &mut usize, numbers: &mut usize) -> u8 {
        let answer = asked(sheet).inspect(|(bytes, _)| *form_bytes = *bytes);
        settle(answer.map(|(_, most_rules)| most_rules), numbers)
    }

    fn blackboard(&self, sheet: &[u8], table: &mut [u8], mask: &mut u8) -> u8 {
        settle(tabled(sheet, table), mask)
    }
}

impl Engine for Idiomatic {
    fn make_form(&self, sheet: &[u8], form: &mut [u8], written: &mut usize) -> u8 {
        settle(made(sheet, form), written)
    }

    fn mark(
        &self,
        sheet: &[u8],
        form: &mut [u8],
        relations: &mut [u64],
        candidate: usize,
        tally: &mut [u32],
        verdict: &mut u8,
        mask: &mut u8,
    ) -> u8 {
        let answer = mark(sheet, form, relations, candidate, tally);
        let answer = answer.inspect(|mark| *verdict = mark.accepted.into());
        settle(answer.map(|mark| mark.mask), mask)
    }
}
