//! A difference between engine and reference, with all that is needed to see it again.

use super::lending::Lent;
use std::fmt;

pub struct Difference {
    call: &'static str,
    inputs: Vec<(&'static str, String)>,
    before: Lent,
    findings: Vec<String>,
}

/// What a check gives: a difference ends the run.
pub type Checked<T> = Result<T, Box<Difference>>;

impl Difference {
    /// A difference that words tell.
    pub fn told(
        call: &'static str,
        inputs: Vec<(&'static str, String)>,
        before: &Lent,
        finding: String,
    ) -> Box<Difference> {
        Box::new(Difference { call, inputs, before: before.clone(), findings: vec![finding] })
    }

    /// Nothing if code and lent parts are as expected.
    pub fn check(
        call: &'static str,
        inputs: impl Fn() -> Vec<(&'static str, String)>,
        before: &Lent,
        expected: (u8, &Lent),
        found: (u8, &Lent),
    ) -> Checked<()> {
        if expected == found {
            return Ok(());
        }
        let mut findings = Vec::new();
        if expected.0 != found.0 {
            findings.push(format!("code: expected {}, found {}", expected.0, found.0));
        }
        for ((name, wanted), (_, got)) in expected.1.parts().iter().zip(found.1.parts()) {
            if *wanted != got {
                findings.push(format!("{name}: expected {wanted}\n{name}: found    {got}"));
            }
        }
        if findings.is_empty() {
            findings.push("cells outside a lent slice were written to".to_string());
        }
        Err(Box::new(Difference { call, inputs: inputs(), before: before.clone(), findings }))
    }

    /// The same with one more thing told.
    pub fn and(mut self: Box<Self>, finding: String) -> Box<Difference> {
        self.findings.push(finding);
        self
    }

    pub fn call(&self) -> &'static str {
        self.call
    }
}

impl fmt::Display for Difference {
    fn fmt(&self, to: &mut fmt::Formatter) -> fmt::Result {
        writeln!(to, "call {}", self.call)?;
        for (name, text) in &self.inputs {
            writeln!(to, "{name}: {text}")?;
        }
        for (name, text) in self.before.parts() {
            writeln!(to, "{name} before: {text}")?;
        }
        for finding in &self.findings {
            writeln!(to, "{finding}")?;
        }
        Ok(())
    }
}
