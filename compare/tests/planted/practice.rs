//! The faults of practice sheets.

use crate::engine::{Fault, Planted};
use compare::calls::FixedCalls;
use compare::idiomatic::Idiomatic;
use compare::reference::calls::joined;
use compare::reference::practice::ALPHABET;

/// W's alphabet, where f comes before h.
const OTHER_ALPHABET: [u8; 3] = [0, 2, 1];

/// A call for a practice sheet with all that it is given.
pub struct Practice<'a> {
    pub first: u32,
    pub m: usize,
    pub automaton: &'a [u8],
    pub sheet: &'a mut [u8],
    pub length: &'a mut usize,
}

impl Planted {
    pub fn practised(&self, call: Practice) -> u8 {
        if self.has(Fault::SheetClearedFirst) {
            call.sheet.fill(0);
        }
        let m = self.m_as_read(call.m);
        if let Some(code) = self.practice_refusal(m, &call) {
            return code;
        }
        let rules = self.practice_rules(self.first_as_read(&call), m);
        let written = joined(&[&ALPHABET, &rules, call.automaton]);
        let fits = written.len() <= call.sheet.len();
        if fits || self.has(Fault::ShortSheetBegun) {
            let begun = written.len().min(call.sheet.len());
            call.sheet[..begun].copy_from_slice(&written[..begun]);
        }
        if fits || self.has(Fault::LengthToldOnShort) {
            *call.length = written.len();
        }
        if fits && self.has(Fault::SheetWritesPast) {
            call.sheet[written.len()..].iter_mut().take(1).for_each(|byte| *byte ^= 1);
        }
        if fits { 0 } else { 24 }
    }

    fn m_as_read(&self, m: usize) -> usize {
        match self.fault {
            Fault::MModulo256 => m % 256,
            Fault::MOfFourBytes => m as u32 as usize,
            _ => m,
        }
    }

    fn first_as_read(&self, call: &Practice) -> u32 {
        match self.fault {
            Fault::SheetFollowsOldBytes if call.sheet.first() == Some(&0) => !call.first,
            _ => call.first,
        }
    }

    /// 27 or one of 14 to 16, in this engine's order.
    fn practice_refusal(&self, m: usize, call: &Practice) -> Option<u8> {
        let taken = match self.fault {
            Fault::MOf0Taken => m <= 20,
            Fault::MOf20Refused => (1..=19).contains(&m),
            Fault::MOf21Taken => (1..=21).contains(&m),
            _ => (1..=20).contains(&m),
        };
        let of_m = (!taken).then_some(27);
        let alphabet = match self.fault {
            Fault::OtherAlphabetChecked => OTHER_ALPHABET,
            _ => ALPHABET,
        };
        let walked = Idiomatic.walk(&alphabet, call.automaton, &[], &mut [], &mut 0);
        let of_automaton = Some(walked).filter(|code| (14..=16).contains(code));
        let of_slice = call.sheet.is_empty().then_some(24);
        match self.fault {
            Fault::AutomatonBeforeM => of_automaton.or(of_m),
            Fault::ShortBeforeM => of_slice.or(of_m).or(of_automaton),
            Fault::ShortBeforeAutomaton => of_m.or(of_slice).or(of_automaton),
            _ => of_m.or(of_automaton),
        }
    }

    fn practice_rules(&self, first: u32, m: usize) -> Vec<u8> {
        let mut generator = Generator { x: first.into(), fault: self.fault };
        let mut rules = vec![1, 2, 1, 0x80];
        for rule in 1..=m {
            let below = if self.has(Fault::RemainderByM) { m } else { rule };
            let even = generator.is_even();
            let j = generator.call(below);
            let k = (even || self.has(Fault::InnerAlwaysDrawn)).then(|| generator.call(below));
            match (self.fault, k.filter(|_| even)) {
                (Fault::InnerDrawnFirst, Some(k)) => rules.extend([1, 3, k, j, 0x80]),
                (_, Some(k)) => rules.extend([1, 3, j, k, 0x80]),
                (Fault::LeafBeforeCall, None) => rules.extend([1, 4, 2, 0, j, 0x80]),
                (_, None) => rules.extend([1, 4, 2, j, 0x80, 0]),
            }
        }
        let last = if self.has(Fault::StartCallsRuleBefore) { m - 1 } else { m };
        rules.extend([0, 2, 0x40 + last as u8, 0]);
        rules
    }
}

/// The generator of an engine with this fault.
struct Generator {
    x: u64,
    fault: Fault,
}

impl Generator {
    fn step(&mut self) {
        let product = match self.fault {
            Fault::ProductLosesHighBit => 1_664_525 * self.x % (1 << 31),
            Fault::HighHalfNotMultiplied => 1_664_525 * (self.x % 65_536),
            Fault::ProductStopsAtTop => (1_664_525 * self.x).min((1 << 32) - 1),
            _ => 1_664_525 * self.x % (1 << 32),
        };
        let sum = product + 1_013_904_223;
        self.x = match self.fault {
            Fault::SumStopsAtTop => sum.min((1 << 32) - 1),
            _ => sum % (1 << 32),
        };
    }

    fn draw(&mut self) -> u64 {
        let before = self.x / 65_536;
        self.step();
        if self.fault == Fault::DrawBeforeStep { before } else { self.x / 65_536 }
    }

    fn is_even(&mut self) -> bool {
        let drawn = self.draw();
        let looked_at = if self.fault == Fault::ParityOfX { self.x } else { drawn };
        looked_at.is_multiple_of(2)
    }

    /// The call of a rule below this number.
    fn call(&mut self, below: usize) -> u8 {
        if below == 1 && self.fault == Fault::NoDrawBelowOne {
            return 0x40;
        }
        0x40 + (self.draw() % below as u64) as u8
    }
}
