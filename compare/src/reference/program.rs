//! The line that program `mark` prints for a sheet.

use super::facts::Facts;
use crate::refusal::Refusal;

pub fn line(sheet: &[u8]) -> String {
    match Facts::of(sheet) {
        Err(Refusal(number)) => format!("refused {number}"),
        Ok(facts) => {
            let verdict = if facts.accepted() { "accepted" } else { "declined" };
            let size = match facts.whole.length {
                u64::MAX => "over".to_string(),
                exact => exact.to_string(),
            };
            format!("{verdict} {} {size}", facts.mask)
        }
    }
}
