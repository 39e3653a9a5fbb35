//! The engine under comparison and what is known of its answers so far.

use super::difference::{Checked, Difference};
use super::histogram::Histogram;
use super::lending::Lent;
use super::list::List;
use super::request::Request;
use crate::calls::Engine;
use crate::reference::fixed_calls::Reference;

pub struct Checker<'e> {
    pub engine: &'e dyn Engine,
    pub histogram: Histogram,
    /// The list of markings that started from zero.
    pub list: List,
}

impl<'e> Checker<'e> {
    pub fn new(engine: &'e dyn Engine) -> Checker<'e> {
        Checker { engine, histogram: Histogram::new(), list: List::new() }
    }

    /// Puts a request through the engine and the reference; hands back the code and what was lent
    /// as the call left it.
    pub fn request(&mut self, request: Request, lent: Lent) -> Checked<(u8, Lent)> {
        let (mut expected, mut found) = (lent.clone(), lent.clone());
        let expected_code = request.put(&Reference, &mut expected);
        let code = request.put(self.engine, &mut found);
        self.histogram.add(expected_code);
        Difference::check(
            request.name(),
            || request.inputs(),
            &lent,
            (expected_code, &expected),
            (code, &found),
        )?;
        Ok((code, found))
    }
}
