//! The practice sheet that is timed.

use super::timing::best;
use crate::calls::Engine;
use crate::generate::practice::like_w;
use std::hint::black_box;

pub const NAME: &str = "m = 20 from 0";

const FIRST: u32 = 0;
const M: usize = 20;

/// Microseconds for writing the sheet.
pub fn time(engine: &dyn Engine) -> f64 {
    let automaton = like_w();
    let (mut sheet, mut length) = ([0; 1832], 0);
    best(|| {
        let (first, m, automaton) = black_box((FIRST, M, &automaton));
        let code = engine.practice(first, m, automaton, &mut sheet, &mut length);
        assert_eq!(code, 0);
        black_box((&sheet, length));
    })
}
