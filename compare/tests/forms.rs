//! What the reference takes for a valid form, rule by rule of "One-hole form".

use compare::hex::bytes;
use compare::reference::form::{Form, fields};

const HEAD: &str = "0500 0400";
/// a of rank 0, f of rank 2, h of rank 1.
const ALPHABET: &str = "03 00 02 01";
const LEAF: &str = "00 00 00 00 FFFF FFFF FFFF FFFF";
const OPEN: &str = "01 01 02 00 0000 FFFF FFFF FFFF";
const COMPOSED: &str = "03 FF 00 00 0100 0100 FFFF FFFF";
const APPLIED: &str = "02 FF 00 00 0200 0000 FFFF FFFF";
const NODE: &str = "00 01 00 00 0300 0000 FFFF FFFF";
const WHOLE: [&str; 7] = [HEAD, ALPHABET, LEAF, OPEN, COMPOSED, APPLIED, NODE];

fn valid(rows: &[&str]) -> bool {
    Form::read(&bytes(&rows.concat())).is_ok()
}

/// The whole form with one row in place of another.
fn valid_with(place: usize, row: &str) -> bool {
    let mut rows = WHOLE;
    rows[place] = row;
    valid(&rows)
}

#[test]
fn all_four_kinds() {
    assert!(valid(&WHOLE));
    assert!(valid_with(0, "0500 0300"));
    assert!(valid_with(0, "0500 0000"));
}

#[test]
fn head_and_length() {
    assert!(!valid(&[]));
    assert!(!valid(&["010000"]));
    assert!(!valid(&["0000 0000"]));
    assert!(!valid(&["0000 0000", ALPHABET]));
    for head in ["0400 0300", "0600 0400", "0500 0500", "0500 0100", "0500 0200"] {
        assert!(!valid_with(0, head), "{head}");
    }
    assert!(valid(&["0100 0000", ALPHABET, LEAF]));
    assert!(!valid(&["0100 0000", ALPHABET, LEAF, "00"]));
    assert!(!valid(&["0100 0000", ALPHABET, "00", LEAF]));
    assert!(!valid(&["0100 0000", LEAF]));
    let whole = bytes(&WHOLE.concat());
    assert!((0..whole.len()).all(|length| Form::read(&whole[..length]).is_err()));
}

#[test]
fn the_alphabet_in_the_head() {
    let wrong = [
        "",
        "00",
        "00 00 02 01",
        "01 00",       // f does not exist
        "02 00 02 01", // one rank too many
        "04 00 02 01", // one too few
        "03 00 02 05", // of a terminal that no rule has
        "03 00 02 FF",
        "03 05 02 01",
        "03 00 01 01", // f has one child less
        "03 00 03 01", // f has one child more
        "03 01 02 01", // the leaf has a child
        "FF 00 02 01",
    ];
    for alphabet in wrong {
        assert!(!valid_with(1, alphabet), "{alphabet}");
    }
    for alphabet in ["02 00 02", "03 00 02 04", "05 00 02 01 04 03"] {
        assert!(valid_with(1, alphabet), "{alphabet}");
    }
}

#[test]
fn one_to_32_terminals() {
    for count in 0..=255 {
        let alphabet = format!("{count:02X} {}", "00 ".repeat(count));
        let lawful = (1..=32).contains(&count);
        assert_eq!(valid(&["0100 0000", &alphabet, LEAF]), lawful, "{count}");
    }
}

#[test]
fn fields_lie_behind_the_alphabet() {
    let whole = bytes(&WHOLE.concat());
    assert_eq!(fields(&whole, 0), [0, 0, 0, 0xFFFF, 0xFFFF, 0xFFFF, 0xFFFF]);
    assert_eq!(fields(&whole, 4), [0, 1, 0, 3, 0, 0xFFFF, 0xFFFF]);
}

#[test]
fn the_most_rules() {
    let form = |head: &str, count: usize| valid(&[head, ALPHABET, &LEAF.repeat(count)]);
    assert!(form("0008 FF07", 2048));
    assert!(!form("0108 FF07", 2049));
}

#[test]
fn nodes() {
    let wrong = [
        "00 03 00 00 FFFF FFFF FFFF FFFF", // no such terminal
        "00 FF 00 00 FFFF FFFF FFFF FFFF",
        "00 01 01 00 0300 0000 FFFF FFFF", // a hole in kind 0
        "00 01 00 01 0300 0000 FFFF FFFF", // byte 3
        "00 01 00 00 0300 FFFF FFFF FFFF", // a slot missing
        "00 01 00 00 0300 0000 0000 FFFF", // one too many
        "00 01 00 00 0300 0400 FFFF FFFF", // not lower
        "00 01 00 00 0300 0100 FFFF FFFF", // rank 1
        "04 01 00 00 0300 0000 FFFF FFFF", // no such kind
    ];
    for row in wrong {
        assert!(!valid_with(6, row), "{row}");
    }
}

#[test]
fn open_nodes() {
    assert!(valid_with(3, "01 01 01 00 FFFF 0000 FFFF FFFF"));
    assert!(valid_with(3, "01 02 01 00 FFFF FFFF FFFF FFFF"));
    let wrong = [
        "01 01 00 00 0000 FFFF FFFF FFFF", // no hole
        "01 01 03 00 0000 0000 FFFF FFFF", // past the rank
        "01 01 01 00 0000 FFFF FFFF FFFF", // the other slot open
        "01 01 02 00 0000 0000 FFFF FFFF", // the open slot filled
        "01 00 01 00 FFFF FFFF FFFF FFFF", // a leaf
        "01 01 02 00 0100 FFFF FFFF FFFF", // not lower
        "01 01 02 01 0000 FFFF FFFF FFFF", // byte 3
    ];
    for row in wrong {
        assert!(!valid_with(3, row), "{row}");
    }
}

#[test]
fn pairs() {
    let wrong = [
        "02 00 00 00 0200 0000 FFFF FFFF", // a terminal
        "02 FF 01 00 0200 0000 FFFF FFFF", // a hole
        "02 FF 00 01 0200 0000 FFFF FFFF", // byte 3
        "02 FF 00 00 0200 0000 0000 FFFF", // slot 2
        "02 FF 00 00 0200 0000 FFFF 0000", // slot 3
        "02 FF 00 00 0000 0000 FFFF FFFF", // slot 0 of rank 0
        "02 FF 00 00 0200 0100 FFFF FFFF", // slot 1 of rank 1
        "02 FF 00 00 0300 0000 FFFF FFFF", // not lower
        "02 FF 00 00 FFFF 0000 FFFF FFFF",
        "03 FF 00 00 0200 0000 FFFF FFFF", // slot 1 of rank 0
        "03 FF 00 00 0200 0300 FFFF FFFF", // not lower
    ];
    for row in wrong {
        assert!(!valid_with(5, row), "{row}");
    }
}
