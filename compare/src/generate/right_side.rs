//! Right sides of a rank, over the terminals and the lower rules.

use super::plan::RulePlan;
use super::random::Random;

/// The node bytes that a right side may use, by rank: terminals first, then rules as they come.
pub struct Names {
    by_rank: [Vec<u8>; 5],
}

impl Names {
    pub fn of(alphabet: &[u8]) -> Names {
        let mut names = Names { by_rank: Default::default() };
        for (terminal, &rank) in alphabet.iter().enumerate() {
            names.by_rank[usize::from(rank)].push(terminal as u8);
        }
        names
    }

    pub fn add_rule(&mut self, number: usize, rule: &RulePlan) {
        self.by_rank[usize::from(rule.rank)].push(0x40 + number as u8);
    }

    /// The highest rank that a rule over these names can have: without a name of rank 2 or more
    /// no two parameters stand side by side.
    pub fn reach(&self) -> usize {
        let highest = self.by_rank.iter().rposition(|names| !names.is_empty());
        match highest.unwrap_or(0) {
            2.. => 4,
            highest => highest,
        }
    }

    /// Names of a rank from low to high; rules often, the latest most often.
    fn draw(&self, random: &mut Random, low: usize, high: usize) -> Option<(u8, usize)> {
        let ranks: Vec<usize> =
            (low..=high.min(4)).filter(|&rank| !self.by_rank[rank].is_empty()).collect();
        if ranks.is_empty() {
            return None;
        }
        let rank = *random.pick(&ranks);
        Some((*random.pick_late(&self.by_rank[rank]), rank))
    }
}

/// Grows one right side.
pub struct Grower<'a> {
    random: &'a mut Random,
    names: &'a Names,
    /// No more nodes than this.
    most: usize,
    nodes: Vec<u8>,
}

impl<'a> Grower<'a> {
    pub fn new(random: &'a mut Random, names: &'a Names, most: usize) -> Grower<'a> {
        Grower { random, names, most, nodes: Vec::new() }
    }

    /// A lawful right side of the rank with each parameter once and none alone, unless the one
    /// tried came out too large.
    pub fn right_side(mut self, rank: usize) -> Option<RulePlan> {
        let mut parameters: Vec<u8> = (0..rank as u8).map(|number| 0x80 + number).collect();
        self.random.shuffle(&mut parameters);
        self.grow(&parameters, self.most, false)?;
        Some(RulePlan { rank: rank as u8, nodes: self.nodes })
    }

    /// A lawful right side of the rank with these parameters and no others, unless the one tried
    /// came out too large. It may be one of them alone.
    pub fn wide_right_side(mut self, rank: usize, parameters: &[u8]) -> Option<RulePlan> {
        self.grow(parameters, self.most, true)?;
        Some(RulePlan { rank: rank as u8, nodes: self.nodes })
    }

    /// One subtree with these parameters in it and, if it can be, within the budget.
    fn grow(&mut self, parameters: &[u8], budget: usize, may_stop: bool) -> Option<()> {
        if let [parameter] = parameters
            && may_stop
            && (budget < 3 || self.random.one_in(2))
        {
            return self.push(*parameter);
        }
        let leaf = budget < 2 || may_stop && self.random.one_in(5);
        let (name, rank) = self.choose(parameters.len(), budget, leaf)?;
        self.push(name)?;
        self.grow_children(parameters, budget.saturating_sub(1), rank)
    }

    fn push(&mut self, node: u8) -> Option<()> {
        self.nodes.push(node);
        (self.nodes.len() <= self.most).then_some(())
    }

    /// A name to stand over so many parameters, of a rank that the budget allows if there is one.
    fn choose(&mut self, parameters: usize, budget: usize, leaf: bool) -> Option<(u8, usize)> {
        let room = budget.saturating_sub(1);
        match parameters {
            0 if leaf => self.draw(0, 0),
            0 => self.draw(1, room).or_else(|| self.draw(0, 0)),
            1 => self.draw(1, room).or_else(|| self.draw(1, 4)),
            _ => {
                let low = self.random.between(1, 2);
                self.draw(low, room).or_else(|| self.draw(2, 4))
            }
        }
    }

    fn draw(&mut self, low: usize, high: usize) -> Option<(u8, usize)> {
        self.names.draw(self.random, low, high)
    }

    fn grow_children(&mut self, parameters: &[u8], budget: usize, rank: usize) -> Option<()> {
        let mut cuts: Vec<usize> =
            (1..rank).map(|_| self.random.between(0, parameters.len())).collect();
        cuts.sort_unstable();
        cuts.push(parameters.len());
        let (begin, mut from) = (self.nodes.len(), 0);
        for (child, &to) in cuts.iter().enumerate().take(rank) {
            let (spent, later) = (self.nodes.len() - begin, rank - 1 - child);
            let left = budget.saturating_sub(spent + later).max(1);
            let share = if later == 0 { left } else { self.random.between(1, left) };
            self.grow(&parameters[from..to], share, true)?;
            from = to;
        }
        Some(())
    }
}
