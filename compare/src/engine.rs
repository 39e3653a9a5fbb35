//! The engine's C interface behind safe functions; the only unsafe code of this package.

use crate::calls::{Engine, FixedCalls};

unsafe extern "C" {
    fn ewf_make_form(
        sheet: *const u8,
        sheet_length: usize,
        form: *mut u8,
        form_length: usize,
        written: *mut usize,
    ) -> u8;
    fn ewf_evaluate(
        alphabet: *const u8,
        alphabet_length: usize,
        automaton: *const u8,
        automaton_length: usize,
        form: *const u8,
        form_length: usize,
        relations: *mut u64,
        relations_length: usize,
        mask: *mut u8,
    ) -> u8;
    fn ewf_add_transition(
        alphabet: *const u8,
        alphabet_length: usize,
        form: *const u8,
        form_length: usize,
        automaton: *const u8,
        automaton_length: usize,
        transition: *const u8,
        transition_length: usize,
        relations: *mut u64,
        relations_length: usize,
        mask: *mut u8,
    ) -> u8;
    fn ewf_unfold(
        alphabet: *const u8,
        alphabet_length: usize,
        form: *const u8,
        form_length: usize,
        counts: *mut u64,
        counts_length: usize,
        tree: *mut u8,
        tree_length: usize,
        length: *mut usize,
    ) -> u8;
    fn ewf_size(
        alphabet: *const u8,
        alphabet_length: usize,
        form: *const u8,
        form_length: usize,
        counts: *mut u64,
        counts_length: usize,
        size: *mut u64,
    ) -> u8;
    fn ewf_label(
        alphabet: *const u8,
        alphabet_length: usize,
        form: *const u8,
        form_length: usize,
        position: u64,
        counts: *mut u64,
        counts_length: usize,
        terminal: *mut u8,
    ) -> u8;
    fn ewf_read_rule(
        alphabet: *const u8,
        alphabet_length: usize,
        form: *const u8,
        form_length: usize,
        number: usize,
        rule: *mut u16,
        rule_length: usize,
    ) -> u8;
    fn ewf_walk(
        alphabet: *const u8,
        alphabet_length: usize,
        automaton: *const u8,
        automaton_length: usize,
        tree: *const u8,
        tree_length: usize,
        masks: *mut u8,
        masks_length: usize,
        mask: *mut u8,
    ) -> u8;
    fn ewf_wrap(
        alphabet: *const u8,
        alphabet_length: usize,
        tree: *const u8,
        tree_length: usize,
        automaton: *const u8,
        automaton_length: usize,
        sheet: *mut u8,
        sheet_length: usize,
        length: *mut usize,
    ) -> u8;
    fn ewf_practice(
        first: u32,
        m: usize,
        automaton: *const u8,
        automaton_length: usize,
        sheet: *mut u8,
        sheet_length: usize,
        length: *mut usize,
    ) -> u8;
    fn ewf_room(
        sheet: *const u8,
        sheet_length: usize,
        form_bytes: *mut usize,
        numbers: *mut usize,
    ) -> u8;
    fn ewf_blackboard(
        sheet: *const u8,
        sheet_length: usize,
        table: *mut u8,
        table_length: usize,
        mask: *mut u8,
    ) -> u8;
    fn ewf_mark(
        sheet: *const u8,
        sheet_length: usize,
        form: *mut u8,
        form_length: usize,
        relations: *mut u64,
        relations_length: usize,
        candidate: usize,
        tally: *mut u32,
        tally_length: usize,
        verdict: *mut u8,
        mask: *mut u8,
    ) -> u8;
}

/// A call of the C interface: slices read, slices lent, plain numbers, more slices lent, places of
/// results; numbers that come before all slices stand in brackets. A slice becomes its pointer and
/// its length.
macro_rules! call {
    (
        $function:ident $([$($leading:ident),*])? (
            $($read:ident),*;
            $($lent:ident),*; $($number:ident),*; $($more:ident),*;
            $($result:ident),*
        )
    ) => {
        // Every slice goes with its own length and every result has a live place, so the engine is
        // given nothing that it may not read or write.
        unsafe {
            $function(
                $($($leading,)*)?
                $($read.as_ptr(), $read.len(),)*
                $($lent.as_mut_ptr(), $lent.len(),)*
                $($number,)*
                $($more.as_mut_ptr(), $more.len(),)*
                $($result,)*
            )
        }
    };
}

/// The engine.
pub struct Ewerflint;

impl FixedCalls for Ewerflint {
    fn evaluate(
        &self,
        alphabet: &[u8],
        automaton: &[u8],
        form: &[u8],
        relations: &mut [u64],
        mask: &mut u8,
    ) -> u8 {
        call!(ewf_evaluate(alphabet, automaton, form; relations; ; ; mask))
    }

    fn add_transition(
        &self,
        alphabet: &[u8],
        form: &[u8],
        automaton: &[u8],
        transition: &[u8],
        relations: &mut [u64],
        mask: &mut u8,
    ) -> u8 {
        call!(ewf_add_transition(alphabet, form, automaton, transition; relations; ; ; mask))
    }

    fn unfold(
        &self,
        alphabet: &[u8],
        form: &[u8],
        counts: &mut [u64],
        tree: &mut [u8],
        length: &mut usize,
    ) -> u8 {
        call!(ewf_unfold(alphabet, form; counts, tree; ; ; length))
    }

    fn size(&self, alphabet: &[u8], form: &[u8], counts: &mut [u64], size: &mut u64) -> u8 {
        call!(ewf_size(alphabet, form; counts; ; ; size))
    }

    fn label(
        &self,
        alphabet: &[u8],
        form: &[u8],
        position: u64,
        counts: &mut [u64],
        terminal: &mut u8,
    ) -> u8 {
        call!(ewf_label(alphabet, form; ; position; counts; terminal))
    }

    fn read_rule(&self, alphabet: &[u8], form: &[u8], number: usize, rule: &mut [u16; 7]) -> u8 {
        call!(ewf_read_rule(alphabet, form; ; number; rule; ))
    }

    fn walk(
        &self,
        alphabet: &[u8],
        automaton: &[u8],
        tree: &[u8],
        masks: &mut [u8],
        mask: &mut u8,
    ) -> u8 {
        call!(ewf_walk(alphabet, automaton, tree; masks; ; ; mask))
    }

    fn wrap(
        &self,
        alphabet: &[u8],
        tree: &[u8],
        automaton: &[u8],
        sheet: &mut [u8],
        length: &mut usize,
    ) -> u8 {
        call!(ewf_wrap(alphabet, tree, automaton; sheet; ; ; length))
    }

    fn practice(
        &self,
        first: u32,
        m: usize,
        automaton: &[u8],
        sheet: &mut [u8],
        length: &mut usize,
    ) -> u8 {
        call!(ewf_practice[first, m](automaton; sheet; ; ; length))
    }

    fn room(&self, sheet: &[u8], form_bytes: &mut usize, numbers: &mut usize) -> u8 {
        call!(ewf_room(sheet; ; ; ; form_bytes, numbers))
    }

    fn blackboard(&self, sheet: &[u8], table: &mut [u8], mask: &mut u8) -> u8 {
        call!(ewf_blackboard(sheet; table; ; ; mask))
    }
}

impl Engine for Ewerflint {
    fn make_form(&self, sheet: &[u8], form: &mut [u8], written: &mut usize) -> u8 {
        call!(ewf_make_form(sheet; form; ; ; written))
    }

    fn mark(
        &self,
        sheet: &[u8],
        form: &mut [u8],
        relations: &mut [u64],
        candidate: usize,
        tally: &mut [u32],
        verdict: &mut u8,
        mask: &mut u8,
    ) -> u8 {
        call!(ewf_mark(sheet; form, relations; candidate; tally; verdict, mask))
    }
}
