//! Form making under comparison.

use super::checker::Checker;
use super::difference::{Checked, Difference};
use super::lending::Lent;
use crate::hex::{hex, runs};
use crate::reference::facts::Facts;
use crate::reference::making;
use crate::refusal::{Answer, Refusal};

impl Checker<'_> {
    /// Puts a sheet through form making; hands back the form where one was made.
    pub fn make_form(
        &mut self,
        sheet: &[u8],
        facts: &Answer<Facts>,
        lent: &Lent,
    ) -> Checked<Option<Vec<u8>>> {
        let inputs = || vec![("sheet", hex(sheet))];
        let mut found = lent.clone();
        let code = self.engine.make_form(sheet, found.bytes.slice_mut(), &mut found.length);
        match making::allowed(facts, lent.bytes.slice().len()) {
            Err(Refusal(number)) => {
                self.histogram.add(number);
                Difference::check("make_form", inputs, lent, (number, lent), (code, &found))?;
                Ok(None)
            }
            Ok(facts) => {
                self.histogram.add(0);
                made(facts, lent, code, &found).map(Some).map_err(|finding| {
                    let bytes = runs(found.bytes.slice());
                    let finding = format!("{finding}\ncode: {code}\nbytes after: {bytes}");
                    Difference::told("make_form", inputs(), lent, finding)
                })
            }
        }
    }
}

/// The form that was made, if it is a right one and nothing else was written.
fn made(facts: &Facts, before: &Lent, code: u8, found: &Lent) -> Result<Vec<u8>, String> {
    if code != 0 {
        return Err("refused, but nothing is wrong".to_string());
    }
    let written = found.length;
    let form = found.bytes.slice().get(..written).ok_or("the form is longer than the slice")?;
    if !found.bytes.keeps_past(&before.bytes, written) {
        return Err(format!("bytes past the written {written} have changed"));
    }
    making::check(facts, form)?;
    Ok(form.to_vec())
}
