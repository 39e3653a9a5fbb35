//! Practice sheets: R-2 of document 02. From the first x come draws, and from the draws the rules.

/// a, h and f.
pub const ALPHABET: [u8; 3] = [0, 1, 2];

/// The terminals of that alphabet, by number.
pub const A: u8 = 0;
pub const H: u8 = 1;
pub const F: u8 = 2;

/// The generator, with its last x.
pub struct Generator {
    x: u64,
}

impl Generator {
    pub fn from(first: u32) -> Generator {
        Generator { x: u64::from(first) }
    }

    /// The next draw. The product is below 2^53, so that nothing is lost before the remainder.
    pub fn draw(&mut self) -> u64 {
        self.x = (1_664_525 * self.x + 1_013_904_223) % (1 << 32);
        self.x / 65_536
    }

    /// A rule below this one: a draw, also where there is but one such rule.
    fn lower(&mut self, rule: usize) -> usize {
        (self.draw() % rule as u64) as usize
    }
}

/// What the draws make of a rule from 1 to m.
#[derive(Clone, Copy)]
pub enum Drawn {
    /// Call j on call k on y1.
    Twice { j: usize, k: usize },
    /// f(call j on y1, a).
    Beside { j: usize },
}

/// Rules 1 to m, in order.
pub fn drawn(first: u32, m: usize) -> Vec<Drawn> {
    let mut generator = Generator::from(first);
    let mut drawn = Vec::new();
    for rule in 1..=m {
        let even = generator.draw().is_multiple_of(2);
        let j = generator.lower(rule);
        drawn.push(if even {
            Drawn::Twice { j, k: generator.lower(rule) }
        } else {
            Drawn::Beside { j }
        });
    }
    drawn
}

/// The sheet's rules as bytes: h(y1), those that are drawn, and the last of these called on a.
pub fn rules(drawn: &[Drawn]) -> Vec<u8> {
    let mut rules = vec![1, 2, H, 0x80];
    for rule in drawn {
        match *rule {
            Drawn::Twice { j, k } => rules.extend([1, 3, call(j), call(k), 0x80]),
            Drawn::Beside { j } => rules.extend([1, 4, F, call(j), 0x80, A]),
        }
    }
    rules.extend([0, 2, call(drawn.len()), A]);
    rules
}

fn call(rule: usize) -> u8 {
    0x40 + rule as u8
}
