//! What rules derive, in outline: stretches of terminals and the parameters between them, found by
//! substitution. What stands in a dropped argument is in no outline.
//!
//! An outline stays small however much the rule derives. A stretch of any length is one
//! fingerprint. A right side has each parameter at most once, and substitution puts an argument at
//! most once for its parameter, so that an outline too has each parameter at most once: at most
//! four, and five stretches around them.

use super::fingerprint::Fingerprint;
use super::rules::Rule;
use super::term::Term;
use std::ptr;

#[derive(Clone, Copy)]
pub enum Piece {
    Terminals(Fingerprint),
    Parameter(usize),
}

/// A parameter that no rule has, since no rank is above 4.
const MARK: usize = 4;

/// The outline of each rule.
pub struct Outlines {
    of_rules: Vec<Vec<Piece>>,
}

impl Outlines {
    pub fn of(rules: &[Rule]) -> Outlines {
        let mut outlines = Outlines { of_rules: Vec::new() };
        for rule in rules {
            let outline = outlines.of_term(&rule.right);
            outlines.of_rules.push(outline);
        }
        outlines
    }

    pub fn of_rule(&self, rule: usize) -> &[Piece] {
        &self.of_rules[rule]
    }

    pub fn has_parameter(&self, rule: usize, parameter: usize) -> bool {
        has_parameter(&self.of_rules[rule], parameter)
    }

    pub fn of_term(&self, term: &Term) -> Vec<Piece> {
        joined(self.pieces(term, None))
    }

    /// Whether a mark put in place of this node of the term would be in the outline.
    pub fn has_node(&self, term: &Term, node: &Term) -> bool {
        has_parameter(&self.pieces(term, Some(node)), MARK)
    }

    /// The outline of the term in pieces, with a mark in place of one of its nodes if one is given.
    fn pieces(&self, term: &Term, marked: Option<&Term>) -> Vec<Piece> {
        if marked.is_some_and(|node| ptr::eq(node, term)) {
            return vec![Piece::Parameter(MARK)];
        }
        match term {
            Term::Parameter(parameter) => vec![Piece::Parameter(*parameter)],
            Term::Terminal(terminal, children) => {
                let mut pieces = vec![Piece::Terminals(Fingerprint::of(*terminal))];
                pieces.extend(children.iter().flat_map(|child| self.pieces(child, marked)));
                pieces
            }
            Term::Call(rule, arguments) => {
                let in_place = |piece: &Piece| match piece {
                    Piece::Parameter(parameter) => self.pieces(&arguments[*parameter], marked),
                    stretch => vec![*stretch],
                };
                self.of_rules[*rule].iter().flat_map(in_place).collect()
            }
        }
    }
}

/// The pieces with neighbouring stretches joined.
fn joined(pieces: Vec<Piece>) -> Vec<Piece> {
    let mut joined: Vec<Piece> = Vec::new();
    for piece in pieces {
        match (joined.last_mut(), piece) {
            (Some(Piece::Terminals(before)), Piece::Terminals(stretch)) => {
                *before = before.then(stretch);
            }
            _ => joined.push(piece),
        }
    }
    joined
}

fn has_parameter(pieces: &[Piece], wanted: usize) -> bool {
    pieces.iter().any(|piece| matches!(piece, Piece::Parameter(it) if *it == wanted))
}
