//! Lawful one-hole forms, other than those that form making gives.

use super::alphabets;
use super::random::Random;
use crate::reference::head;

const UNUSED: u16 = 0xFFFF;

/// A rule of a form in its fields.
struct Row {
    kind: u8,
    terminal: u8,
    hole: u8,
    slots: [u16; 4],
}

/// A form in the making: its alphabet, the terminals that further rules may have, its rules, and
/// the numbers of those of rank 0 and of rank 1 that further rules may call.
struct FormPlan<'a> {
    alphabet: &'a [u8],
    terminals: Vec<u8>,
    rows: Vec<Row>,
    trees: Vec<u16>,
    contexts: Vec<u16>,
}

impl FormPlan<'_> {
    fn over(alphabet: &[u8]) -> FormPlan<'_> {
        let terminals = (0..alphabet.len() as u8).collect();
        FormPlan { alphabet, terminals, rows: vec![], trees: vec![], contexts: vec![] }
    }

    fn bytes(&self, start: u16) -> Vec<u8> {
        let mut bytes = Vec::new();
        bytes.extend((self.rows.len() as u16).to_le_bytes());
        bytes.extend(start.to_le_bytes());
        bytes.push(self.alphabet.len() as u8);
        bytes.extend(self.alphabet);
        for row in &self.rows {
            bytes.extend([row.kind, row.terminal, row.hole, 0]);
            bytes.extend(row.slots.iter().flat_map(|slot| slot.to_le_bytes()));
        }
        bytes
    }

    fn push(&mut self, row: Row) -> u16 {
        let number = self.rows.len() as u16;
        match row.kind {
            0 | 2 => self.trees.push(number),
            _ => self.contexts.push(number),
        }
        self.rows.push(row);
        number
    }

    fn pair(&mut self, kind: u8, outer: u16, inner: u16) -> u16 {
        let slots = [outer, inner, UNUSED, UNUSED];
        self.push(Row { kind, terminal: 0xFF, hole: 0, slots })
    }

    /// A terminal over picked rules of rank 0, with an open place if there is a hole.
    fn node(&mut self, random: &mut Random, terminal: u8, hole: u8) -> u16 {
        let mut slots = [UNUSED; 4];
        for place in 0..self.alphabet[usize::from(terminal)] {
            if place + 1 != hole {
                slots[usize::from(place)] = *random.pick_late(&self.trees);
            }
        }
        self.push(Row { kind: u8::from(hole > 0), terminal, hole, slots })
    }

    /// One more rule with this terminal, which no further rule calls.
    fn uncalled(&mut self, random: &mut Random, terminal: u8) {
        let rank = usize::from(self.alphabet[usize::from(terminal)]);
        let hole = random.below(rank + 1) as u8;
        self.node(random, terminal, hole);
        let numbers = if hole > 0 { &mut self.contexts } else { &mut self.trees };
        numbers.pop();
    }

    /// One more rule, of a kind that the rules so far allow.
    fn grow(&mut self, random: &mut Random) {
        let alphabet = self.alphabet;
        let mut terminal = *random.pick(&self.terminals);
        if alphabet[usize::from(terminal)] == 0 {
            // Leaves are drawn twice, or the trees would stay small.
            terminal = *random.pick(&self.terminals);
        }
        let rank = usize::from(alphabet[usize::from(terminal)]);
        match random.below(4) {
            1 if rank > 0 => {
                let hole = random.between(1, rank) as u8;
                self.node(random, terminal, hole);
            }
            2 if !self.contexts.is_empty() => {
                let (outer, inner) =
                    (*random.pick_late(&self.contexts), *random.pick_late(&self.trees));
                self.pair(2, outer, inner);
            }
            3 if !self.contexts.is_empty() => {
                let outer = *random.pick_late(&self.contexts);
                let inner = *random.pick_late(&self.contexts);
                self.pair(3, outer, inner);
            }
            _ => {
                self.node(random, terminal, 0);
            }
        }
    }
}

/// How many rules a form has, often as many as it may.
pub fn rule_count(random: &mut Random) -> usize {
    match random.below(16) {
        0 => random.between(2047, 2048),
        1 => random.between(1, 600),
        2 | 3 => random.between(1, 120),
        _ => random.between(1, 30),
    }
}

/// A lawful form over an alphabet with a terminal of rank 0.
pub fn form(random: &mut Random, alphabet: &[u8]) -> Vec<u8> {
    let count = rule_count(random);
    let mut plan = FormPlan::over(alphabet);
    let leaves = alphabets::of_rank(alphabet, 0);
    let leaf = *random.pick(&leaves);
    plan.node(random, leaf, 0);
    while plan.rows.len() < count {
        plan.grow(random);
    }
    let start = *random.pick_late(&plan.trees);
    plan.bytes(start)
}

/// A lawful form of so many rules over an alphabet with a terminal of rank 0 beside this one. Only
/// the last few rules, at most so many, depend on this one, and here and there a rule that nothing
/// calls.
pub fn with_few(
    random: &mut Random,
    alphabet: &[u8],
    rare: u8,
    count: usize,
    last: usize,
) -> Vec<u8> {
    let mut plan = FormPlan::over(alphabet);
    plan.terminals.retain(|&terminal| terminal != rare);
    let leaves = alphabets::of_rank(alphabet, 0);
    let others: Vec<u8> = leaves.into_iter().filter(|&leaf| leaf != rare).collect();
    let leaf = *random.pick(&others);
    plan.node(random, leaf, 0);
    while plan.rows.len() + last < count {
        plan.grow(random);
        if plan.rows.len() + last < count && random.one_in(40) {
            plan.uncalled(random, rare);
        }
    }
    plan.terminals.extend(vec![rare; plan.terminals.len()]);
    while plan.rows.len() < count {
        plan.grow(random);
    }
    let late = *random.pick_late(&plan.trees);
    let start = if random.one_in(2) { *random.pick(&plan.trees) } else { late };
    plan.bytes(start)
}

/// A lawful form whose tree is a leaf under so many copies of a context, over an alphabet with
/// terminals of ranks 0 and 1.
pub fn tower(random: &mut Random, alphabet: &[u8], height: u128) -> Vec<u8> {
    let mut plan = FormPlan::over(alphabet);
    let leaves = alphabets::of_rank(alphabet, 0);
    let leaf = *random.pick(&leaves);
    let mut tree = plan.node(random, leaf, 0);
    let over = (0..alphabet.len() as u8).filter(|&it| alphabet[usize::from(it)] > 0);
    let terminal = *random.pick(&over.collect::<Vec<u8>>());
    let hole = random.between(1, usize::from(alphabet[usize::from(terminal)])) as u8;
    let mut context = plan.node(random, terminal, hole);
    let mut left = height;
    while left > 0 {
        if left % 2 == 1 {
            tree = plan.pair(2, context, tree);
        }
        context = plan.pair(3, context, context);
        left /= 2;
    }
    plan.bytes(tree)
}

/// Whether some rule of the form has the terminal.
pub fn uses(form: &[u8], terminal: u8) -> bool {
    let rules = form.get(head::end(form)..).unwrap_or_default();
    rules.chunks_exact(12).any(|rule| rule[0] < 2 && rule[1] == terminal)
}

/// A height of a tower, often near a limit of sizes.
pub fn height(random: &mut Random) -> u128 {
    let near = match random.below(5) {
        0 => 1 << 64,
        1 => 1 << 63,
        2 => 4096,
        3 => 128,
        _ => u128::from(random.word()) << random.below(16),
    };
    near.saturating_sub(4) + random.below(8) as u128
}
