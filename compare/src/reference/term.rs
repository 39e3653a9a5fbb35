//! Right sides: trees over terminals, calls and parameters.

/// What a node byte names. Rules and parameters are numbered from 0 here.
#[derive(Clone, Copy)]
pub enum Symbol {
    Terminal(u8),
    Call(usize),
    Parameter(usize),
}

impl Symbol {
    pub fn read(node: u8) -> Option<Symbol> {
        match node {
            0x00..=0x1F => Some(Symbol::Terminal(node)),
            0x40..=0x7F => Some(Symbol::Call(usize::from(node - 0x40))),
            0x80..=0x83 => Some(Symbol::Parameter(usize::from(node - 0x80))),
            _ => None,
        }
    }
}

#[derive(Clone)]
pub enum Term {
    Terminal(u8, Vec<Term>),
    Call(usize, Vec<Term>),
    Parameter(usize),
}

impl Term {
    /// Reads one term from the front of nodes paired with their ranks.
    pub fn read(rest: &mut &[(Symbol, usize)]) -> Option<Term> {
        let (&(symbol, rank), behind) = rest.split_first()?;
        *rest = behind;
        let children = (0..rank).map(|_| Term::read(rest)).collect::<Option<Vec<Term>>>()?;
        Some(match symbol {
            Symbol::Terminal(terminal) => Term::Terminal(terminal, children),
            Symbol::Call(rule) => Term::Call(rule, children),
            Symbol::Parameter(parameter) => Term::Parameter(parameter),
        })
    }

    pub fn children(&self) -> &[Term] {
        match self {
            Term::Terminal(_, children) | Term::Call(_, children) => children,
            Term::Parameter(_) => &[],
        }
    }

    pub fn is_parameter(&self, wanted: usize) -> bool {
        matches!(self, Term::Parameter(parameter) if *parameter == wanted)
    }

    /// All nodes of the term, itself first.
    pub fn nodes(&self) -> Vec<&Term> {
        let mut nodes = vec![self];
        for child in self.children() {
            nodes.extend(child.nodes());
        }
        nodes
    }
}
