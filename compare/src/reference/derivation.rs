//! The sheet's tree and what other rules derive, by substitution; for small trees.

use super::rules::Rule;
use super::term::Term;
use super::tree::Tree;

/// What the start becomes.
pub fn tree(rules: &[Rule]) -> Tree {
    finished(open_tree(rules, rules.len() - 1))
}

/// What a rule becomes: a tree with an open place for each of its parameters that is left.
pub fn open_tree(rules: &[Rule], rule: usize) -> Term {
    Derivation { rules, values: vec![None; rules.len()] }.of_rule(rule)
}

/// What rules become: terms of terminals and parameters. A rule is worked out when a call that
/// stands in the tree first wants it, since a rule that only a dropped argument calls may become
/// enormous; and once, since a small tree may take very many calls.
struct Derivation<'s> {
    rules: &'s [Rule],
    values: Vec<Option<Term>>,
}

impl Derivation<'_> {
    fn of_rule(&mut self, rule: usize) -> Term {
        if let Some(value) = &self.values[rule] {
            return value.clone();
        }
        let rules = self.rules;
        let value = self.value(&rules[rule].right);
        self.values[rule] = Some(value.clone());
        value
    }

    /// The term with every call replaced.
    fn value(&mut self, term: &Term) -> Term {
        match term {
            Term::Parameter(parameter) => Term::Parameter(*parameter),
            Term::Terminal(terminal, children) => {
                let children = children.iter().map(|child| self.value(child)).collect();
                Term::Terminal(*terminal, children)
            }
            Term::Call(rule, arguments) => {
                let called = self.of_rule(*rule);
                self.filled(called, arguments)
            }
        }
    }

    /// What a rule has become, with argument i for parameter i. An argument that no parameter
    /// stands for is passed over.
    fn filled(&mut self, called: Term, arguments: &[Term]) -> Term {
        match called {
            Term::Parameter(parameter) => self.value(&arguments[parameter]),
            Term::Terminal(terminal, children) => {
                let fill = |child| self.filled(child, arguments);
                Term::Terminal(terminal, children.into_iter().map(fill).collect())
            }
            Term::Call(..) => unreachable!("every call has been replaced"),
        }
    }
}

fn finished(term: Term) -> Tree {
    match term {
        Term::Terminal(terminal, children) => {
            Tree { terminal, children: children.into_iter().map(finished).collect() }
        }
        _ => unreachable!("the start has become terminals only"),
    }
}
