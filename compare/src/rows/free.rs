//! The calls that make a form. Document 01 leaves open which: the form is taken back out of the
//! stored text and must be one that may be made; all else follows from it.

use super::call::Rooms;
use super::fields::pieces;
use super::printed::{lent, slice};
use super::words::{said, tally_text};
use crate::reference::facts::Facts;
use crate::reference::tally::Tally;
use crate::reference::{calls, making, marking};
use crate::refusal::Answer;

pub fn make(sheet: &[u8], room: usize, stored: &str) -> Result<String, String> {
    let (made, form) = made(making::allowed(&Facts::of(sheet), room), room, stored)?;
    Ok(said("written", made) + &slice("form", &form))
}

pub fn mark(
    sheet: &[u8],
    tally: Tally,
    room: usize,
    numbers: usize,
    candidate: usize,
    stored: &str,
) -> Result<String, String> {
    let facts = Facts::of(sheet);
    let allowed = marking::allowed(&tally, candidate, &facts, room, numbers);
    let (made, form) = made(allowed, room, stored)?;
    let mut relations = lent(numbers);
    let marked = made.and_then(|written| {
        let sheet = &allowed?.sheet;
        let form = &form[..written];
        calls::evaluate(&sheet.alphabet_body, &sheet.automaton_body, form, &mut relations)
    });
    let verdict = if allowed.is_ok_and(Facts::accepted) { "accepted" } else { "declined" };
    let moved = tally_text(marking::tally_after(tally, candidate, allowed));
    let lent = slice("form", &form) + &slice("relations", &relations);
    Ok(format!("{}, {moved}{lent}", said(verdict, marked)))
}

/// Form making, evaluation, unfolding and the walk over what was unfolded. What a call needs of
/// one that refused is not there, and it hands the refusal on.
pub fn certify(sheet: &[u8], rooms: &Rooms, stored: &str) -> Result<String, String> {
    let facts = Facts::of(sheet);
    let allowed = making::allowed(&facts, rooms.form);
    let (made, form) = made(allowed, rooms.form, stored)?;
    let (mut relations, mut counts) = (lent(rooms.relations), lent(rooms.counts));
    let (mut tree, mut masks) = (lent(rooms.tree), lent(rooms.masks));
    let bodies = allowed.map(|facts| (&facts.sheet.alphabet_body, &facts.sheet.automaton_body));
    let given = bodies.and_then(|(alphabet, automaton)| Ok((alphabet, automaton, &form[..made?])));
    let evaluated = given.and_then(|(alphabet, automaton, form)| {
        calls::evaluate(alphabet, automaton, form, &mut relations)
    });
    let unfolded =
        given.and_then(|(alphabet, _, form)| calls::unfold(alphabet, form, &mut counts, &mut tree));
    let walked = given.and_then(|(alphabet, automaton, _)| {
        calls::walk(alphabet, automaton, &tree[..unfolded?], &mut masks)
    });
    let answers = [
        said("written", made),
        said("mask", evaluated),
        said("written", unfolded),
        said("mask", walked),
    ];
    let slices = [
        slice("counts", &counts),
        slice("tree", &tree),
        slice("masks", &masks),
        slice("form", &form),
        slice("relations", &relations),
    ];
    Ok(answers.join(", ") + &slices.concat())
}

/// What form making answers and how it leaves its slice, with the stored form where it may make
/// one.
fn made(
    allowed: Answer<&Facts>,
    room: usize,
    stored: &str,
) -> Result<(Answer<usize>, Vec<u8>), String> {
    let mut slice = lent(room);
    let facts = match allowed {
        Ok(facts) => facts,
        Err(refusal) => return Ok((Err(refusal), slice)),
    };
    let form = stored_form(stored).ok_or("no form can be read there")?;
    making::check(facts, &form)?;
    slice.get_mut(..form.len()).ok_or("the form is longer than its slice")?.copy_from_slice(&form);
    Ok((Ok(form.len()), slice))
}

/// The form of a stored text: what stands between `; form ` and the comma before the kept bytes.
/// No valid form ends with the filling, so these are all of its bytes.
fn stored_form(stored: &str) -> Option<Vec<u8>> {
    let text = stored.split("; ").find_map(|part| part.strip_prefix("form "))?;
    let (elements, _) = text.split_once(',')?;
    pieces(elements.to_ascii_uppercase().split(' '))
}
