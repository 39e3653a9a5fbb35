//! The examples of the documents, put through the calls before any generated input.

use super::checker::Checker;
use super::difference::Checked;
use super::lending::Lent;
use super::request::Request;
use crate::generate::random::Random;
use crate::reference::facts::Facts;
use crate::reference::head::rules_behind;
use crate::reference::sheet::Sheet;
use crate::rows;

/// W, as the rows of program `examples` name it.
const W: &str = "K1 W";

/// The rows that have the other sheets of document 01: those for the desk and one for each
/// refusal.
const SHEETS: [&str; 24] = [
    "K2 b33=02",
    "K4 only rule 00 01 00",
    "K5 W without transitions",
    "K6 f(a,a), a to 0, a to 1, f(0,1) to 0",
    "K7 h doubled ten times, on a",
    "K8 f(y2,y1) on a, h(a)",
    "K10 127 h over a",
    "K11 255 transitions",
    "K11 256 transitions",
    "1 empty",
    "2 b0=0D",
    "3 three empty bodies",
    "4 b12=05",
    "5 b27=05",
    "6 65 times 00 01 00",
    "7 one rule of 129",
    "8 b15=05",
    "9 b22=03",
    "10 b28=00",
    "11 b25=81",
    "13 W without rule 2",
    "14 W less its last byte",
    "15 b32=09",
    "16 b34=03",
];

impl Checker<'_> {
    pub fn named(&mut self, random: &mut Random) -> Checked<()> {
        let w = rows::sheet(W);
        self.sheet(random, &w)?;
        for name in SHEETS {
            self.sheet(random, &rows::sheet(name))?;
        }
        self.named_wide(random)?;
        self.named_room(random)?;
        self.named_blackboard(random)?;
        self.named_markings(random, &w)?;
        self.named_form_calls(random, &w)?;
        self.named_alphabets(random)?;
        self.named_adding(random)?;
        self.named_tree_calls(random, &w)?;
        self.named_practice(random)
    }

    /// The examples of 17, 18, 20 and 21.
    fn named_form_calls(&mut self, random: &mut Random, w: &[u8]) -> Checked<()> {
        let alphabet = &Sheet::read(w).expect("a lawful sheet").alphabet_body;
        let facts = Facts::of(w);
        self.make_form(w, &facts, &Lent::new(random, 211, 0))?;
        let form = self.make_form(w, &facts, &Lent::new(random, 212, 0))?.unwrap_or_default();
        let count = rules_behind(&form);
        let size = Request::Size { alphabet, form: &form[..3.min(form.len())] };
        let unfold = Request::Unfold { alphabet, form: &form };
        let label = Request::Label { alphabet, form: &form, position: 7 };
        let read_rule = Request::ReadRule { alphabet, form: &form, number: count };
        for request in [size, unfold, label, read_rule] {
            let lent = Lent::new(random, 6, 2 * count);
            self.request(request, lent)?;
        }
        Ok(())
    }

    /// The examples of 22 to 24.
    fn named_tree_calls(&mut self, random: &mut Random, w: &[u8]) -> Checked<()> {
        let sheet = Sheet::read(w).expect("a lawful sheet");
        let (alphabet, automaton) = (&sheet.alphabet_body, &sheet.automaton_body);
        let long = Request::Walk { alphabet, automaton, tree: &[0; 4097] };
        let cut = Request::Walk { alphabet, automaton, tree: &[1, 0] };
        let wrap = Request::Wrap { alphabet, tree: &[0], automaton };
        for request in [long, cut, wrap] {
            self.request(request, Lent::new(random, 0, 0))?;
        }
        Ok(())
    }
}
