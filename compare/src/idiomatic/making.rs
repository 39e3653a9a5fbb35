//! Form making by skeletons: source document 000, section 6, in one pass.

use super::alphabet::Alphabet;
use super::cleaning::{LONGEST_BODY, clean, parameters};
use super::form::{Form, FormRule};
use super::sheet::{Rule, Sheet};

/// A place in the list of cells.
type Id = usize;

/// A skeleton's root; what lies below it is in lower cells.
#[derive(Clone, Copy)]
enum Cell {
    Parameter(u8),
    /// A form rule of rank 0.
    Shut(u16),
    /// A form rule of rank 1 over a skeleton.
    Under(u16, Id),
    /// A terminal over skeletons, two or more of them open.
    Branch(u8, [Id; 4]),
}

struct Maker<'s> {
    alphabet: Alphabet<'s>,
    sheet_rules: &'s [Rule<'s>],
    cells: Vec<Cell>,
    skeletons: Vec<Id>,
    rules: Vec<FormRule>,
}

/// A form that derives the sheet's tree.
pub fn form<'a>(sheet: &Sheet<'a>) -> Form<'a> {
    form_by(sheet, |_: &Rule, kept: &[u8]| parameters(kept))
}

/// The form where cleaning leaves each rule with the parameters that are told.
pub fn form_by<'a>(sheet: &Sheet<'a>, present_in: impl Fn(&Rule, &[u8]) -> u8) -> Form<'a> {
    if sheet.is_clean {
        return form_of(sheet.alphabet, &sheet.rules);
    }
    let mut body = [0; LONGEST_BODY];
    form_of(sheet.alphabet, &clean(sheet.alphabet, &sheet.rules, present_in, &mut body))
}

/// The form of rules that need no cleaning, unless for a rule that is one parameter and never
/// called.
fn form_of<'a>(alphabet: Alphabet<'a>, sheet_rules: &[Rule]) -> Form<'a> {
    let mut maker = Maker {
        alphabet,
        sheet_rules,
        cells: Vec::new(),
        skeletons: Vec::new(),
        rules: Vec::new(),
    };
    for rule in sheet_rules {
        let skeleton = maker.right_side(rule);
        maker.skeletons.push(skeleton);
    }
    match maker.skeletons.last().map(|&start| maker.cells[start]) {
        Some(Cell::Shut(start)) => Form { alphabet, rules: maker.rules, start },
        _ => unreachable!("the start has no parameters"),
    }
}

impl Maker<'_> {
    /// The skeleton of a right side, built from its last node to its first.
    fn right_side(&mut self, rule: &Rule) -> Id {
        let mut stack = Vec::new();
        for &node in rule.nodes.iter().rev() {
            let id = match node {
                0x00..=0x1F => {
                    let rank = self.alphabet.rank(node).unwrap_or(0);
                    let children = take(&mut stack, rank);
                    self.grow(node, children, rank)
                }
                0x40..=0x7F => {
                    let called = usize::from(node - 0x40);
                    let rank = usize::from(self.sheet_rules[called].rank);
                    let arguments = take(&mut stack, rank);
                    self.fill(self.skeletons[called], &arguments)
                }
                _ => self.cell(Cell::Parameter(node - 0x80)),
            };
            stack.push(id);
        }
        stack[0]
    }

    /// The skeleton with the arguments in its parameters' places.
    fn fill(&mut self, skeleton: Id, arguments: &[Id; 4]) -> Id {
        match self.cells[skeleton] {
            Cell::Parameter(parameter) => arguments[usize::from(parameter)],
            Cell::Shut(_) => skeleton,
            Cell::Under(context, below) => {
                let filled = self.fill(below, arguments);
                self.put(context, filled)
            }
            Cell::Branch(terminal, mut children) => {
                let rank = self.alphabet.rank(terminal).unwrap_or(0);
                for child in &mut children[..rank] {
                    *child = self.fill(*child, arguments);
                }
                self.grow(terminal, children, rank)
            }
        }
    }

    fn put(&mut self, context: u16, below: Id) -> Id {
        match self.cells[below] {
            Cell::Shut(inner) => self.shut(FormRule::Applied { outer: context, inner }),
            Cell::Under(inner, under) => {
                let composed = self.rule(FormRule::Composed { outer: context, inner });
                self.cell(Cell::Under(composed, under))
            }
            Cell::Parameter(_) | Cell::Branch(..) => self.cell(Cell::Under(context, below)),
        }
    }

    fn grow(&mut self, terminal: u8, children: [Id; 4], rank: usize) -> Id {
        let mut slots = [0xFFFF; 4];
        let mut open = Vec::new();
        for (place, &child) in children[..rank].iter().enumerate() {
            match self.cells[child] {
                Cell::Shut(rule) => slots[place] = rule,
                _ => open.push(place),
            }
        }
        match open[..] {
            [] => self.shut(FormRule::Tree { terminal, slots }),
            [place] => {
                let hole = place as u8 + 1;
                let context = self.rule(FormRule::Context { terminal, hole, slots });
                self.put(context, children[place])
            }
            _ => self.cell(Cell::Branch(terminal, children)),
        }
    }

    fn shut(&mut self, rule: FormRule) -> Id {
        let number = self.rule(rule);
        self.cell(Cell::Shut(number))
    }

    fn rule(&mut self, rule: FormRule) -> u16 {
        self.rules.push(rule);
        (self.rules.len() - 1) as u16
    }

    fn cell(&mut self, cell: Cell) -> Id {
        self.cells.push(cell);
        self.cells.len() - 1
    }
}

/// The topmost ids, the first child first.
fn take(stack: &mut Vec<Id>, rank: usize) -> [Id; 4] {
    let mut taken = [0; 4];
    for place in &mut taken[..rank] {
        *place = stack.pop().expect("the nodes are one tree");
    }
    taken
}
