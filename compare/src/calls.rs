//! The thirteen calls, in the shape of the C interface: each returns 0 or a refusal's number, and
//! results go through the `&mut` arguments, which a refusal leaves as they were.

/// The calls whose results the documents fix.
pub trait FixedCalls {
    fn evaluate(
        &self,
        alphabet: &[u8],
        automaton: &[u8],
        form: &[u8],
        relations: &mut [u64],
        mask: &mut u8,
    ) -> u8;

    /// Carries the relations over to the automaton with one transition more.
    fn add_transition(
        &self,
        alphabet: &[u8],
        form: &[u8],
        automaton: &[u8],
        transition: &[u8],
        relations: &mut [u64],
        mask: &mut u8,
    ) -> u8;

    fn unfold(
        &self,
        alphabet: &[u8],
        form: &[u8],
        counts: &mut [u64],
        tree: &mut [u8],
        length: &mut usize,
    ) -> u8;

    /// The size 2^64 - 1 stands for "over".
    fn size(&self, alphabet: &[u8], form: &[u8], counts: &mut [u64], size: &mut u64) -> u8;

    fn label(
        &self,
        alphabet: &[u8],
        form: &[u8],
        position: u64,
        counts: &mut [u64],
        terminal: &mut u8,
    ) -> u8;

    /// The rule's kind, terminal, hole and four slots.
    fn read_rule(&self, alphabet: &[u8], form: &[u8], number: usize, rule: &mut [u16; 7]) -> u8;

    fn walk(
        &self,
        alphabet: &[u8],
        automaton: &[u8],
        tree: &[u8],
        masks: &mut [u8],
        mask: &mut u8,
    ) -> u8;

    fn wrap(
        &self,
        alphabet: &[u8],
        tree: &[u8],
        automaton: &[u8],
        sheet: &mut [u8],
        length: &mut usize,
    ) -> u8;

    /// The sheet that the draws from the first x give, with rules 1 to m drawn.
    fn practice(
        &self,
        first: u32,
        m: usize,
        automaton: &[u8],
        sheet: &mut [u8],
        length: &mut usize,
    ) -> u8;

    /// How many bytes making and marking of the sheet ask for, and how many numbers marking asks for.
    fn room(&self, sheet: &[u8], form_bytes: &mut usize, numbers: &mut usize) -> u8;

    /// The tables of the sheet's rules, and the mask by them.
    fn blackboard(&self, sheet: &[u8], table: &mut [u8], mask: &mut u8) -> u8;
}

/// All calls. In these two the form is free.
pub trait Engine: FixedCalls {
    fn make_form(&self, sheet: &[u8], form: &mut [u8], written: &mut usize) -> u8;

    /// Of each candidate in turn the tally counts accepted, declined and turned away; the verdict
    /// is 1 for accepted.
    #[expect(clippy::too_many_arguments, reason = "these are the arguments of the C interface")]
    fn mark(
        &self,
        sheet: &[u8],
        form: &mut [u8],
        relations: &mut [u64],
        candidate: usize,
        tally: &mut [u32],
        verdict: &mut u8,
        mask: &mut u8,
    ) -> u8;
}
