//! Rows of every call, answered and refused, with what must be printed for each. A word behind a
//! `$` stands for bytes that come often.

/// W's contents, alphabet, rules and transitions.
const CONTENTS: &str = "0C0003000F00110020001A00";
const ALPHABET: &str = "000201";
const RULES: &str = "0103020280020401408180000441004000";
const TRANSITIONS: &str = "0000FFFFFFFF020100FFFFFF020001FFFFFF01000000FFFF";

/// A form of W's tree, written by hand: a, h, hh, hhhh, hhhh(a), f(hhhh(a), a).
const FORM: &str = "\
    060005000300020100000000FFFFFFFFFFFFFFFF01020100FFFFFFFFFFFFFFFF03FF000001000100FFFFFFFF\
    03FF000002000200FFFFFFFF02FF000003000000FFFFFFFF0001000004000000FFFFFFFF";

/// The form {a; h(rule 0)}.
const CALLED: &str = "\
    020001000300020100000000FFFFFFFFFFFFFFFF000200000000FFFFFFFFFFFF";

/// What is left of the slices after it was made, evaluated and counted, but for the kept elements.
const MADE: &str = "\
    form 06 00 05 00 03 00 02 01 00 00 00 00 ff ff ff ff ff ff ff ff \
    01 02 01 00 ff ff ff ff ff ff ff ff 03 ff 00 00 01 00 01 00 ff ff ff ff \
    03 ff 00 00 02 00 02 00 ff ff ff ff \
    02 ff 00 00 03 00 00 00 ff ff ff ff 00 01 00 00 04 00 00 00 ff ff ff ff";
const RELATIONS: &str = "relations 1 102 201 201 1 1";
const COUNTS: &str = "counts 1 0 1 1 2 2 4 4 5 0 7 0";
const TREE: &str = "tree 01 02 02 02 02 00 00";
const MASKS: &str = "masks 01 01 02 01 02 01 01";

/// The sheet of one leaf, wrapped without transitions, and the form of it.
const LEAF: &str = "sheet 0c 00 03 00 0f 00 03 00 12 00 02 00 00 02 01 00 01 00 02 01";
const LEAF_FORM: &str = "form 01 00 00 00 03 00 02 01 00 00 00 00 ff ff ff ff ff ff ff ff";

/// Practice sheets of one drawn rule, without transitions: after an even draw, and after an odd one.
const EVEN: &str = "\
    sheet 0c 00 03 00 0f 00 0d 00 1c 00 02 00 00 01 02 01 02 01 80 01 03 40 40 80 00 02 41 00 01 00";
const ODD: &str = "\
    sheet 0c 00 03 00 0f 00 0e 00 1d 00 02 00 00 01 02 01 02 01 80 01 04 02 40 80 00 00 02 41 00 \
    01 00";

/// Counts 3, 1 and 2 of candidate 0, and the bytes of candidates without a count.
const TALLY: &str = "030000000100000002000000";
const NOBODY: &str = "000000000000000000000000";

const HEADINGS: [(&str, &str); 3] =
    [("# A heading: line 00", "# A heading: line 00"), ("", ""), ("#", "#")];

const SHEET_CALLS: [(&str, &str); 17] = [
    ("K1 W: line $w", "K1 W: accepted 1 7"),
    (": line $contents+$alphabet+$rules+0202+$transitions", ": declined 1 7"),
    ("empty: line -", "empty: refused 1"),
    ("65 rules: line 0C0003000F00C300D2000200+$alphabet+65*000100+0201", "65 rules: refused 6"),
    ("asked: room $w", "asked: asked 212 17"),
    (
        "65 rules asked: room 0C0003000F00C300D2000200+$alphabet+65*000100+0201",
        "65 rules asked: refused 6",
    ),
    ("none asked: room -", "none asked: refused 1"),
    (
        "board: blackboard $w 12290",
        "board: mask 1; table 01 02 4094*00 01 4095*00 01 4095*00, 2 kept",
    ),
    ("short board: blackboard $w 12287", "short board: refused 19; table 12287 kept"),
    ("no board: blackboard - 0", "no board: refused 1; table 0 kept"),
    (
        "dropped: blackboard 0C0003000F00080017000800+$alphabet+0101000003400200+01010000FFFFFFFF 8192",
        "dropped: mask 1; table 01 4095*00 01 4095*00, 0 kept",
    ),
    ("made: make $w 216", "made: written 80; $made, 136 kept"),
    ("17: make $w 211", "17: refused 17; form 211 kept"),
    (
        "certified: certify $w 212 7 13 8 9",
        "certified: written 80, mask 1, written 7, mask 1; $counts, 1 kept; $tree, 1 kept; \
         $masks, 2 kept; $made, 132 kept; $relations, 1 kept",
    ),
    (
        "20 of four: certify $w 212 6 12 6 9",
        "20 of four: written 80, mask 1, refused 20, refused 20; counts 12 kept; tree 6 kept; \
         masks 9 kept; $made, 132 kept; $relations, 0 kept",
    ),
    (
        "19 of four: certify $w 212 5 12 7 6",
        "19 of four: written 80, refused 19, written 7, refused 19; $counts, 0 kept; $tree, 0 kept; \
         masks 6 kept; $made, 132 kept; relations 5 kept",
    ),
    (
        "1 of four: certify - 1 2 3 4 5",
        "1 of four: refused 1, refused 1, refused 1, refused 1; counts 3 kept; tree 4 kept; \
         masks 5 kept; form 1 kept; relations 2 kept",
    ),
];

const MARKINGS: [(&str, &str); 10] = [
    (
        "marked: mark $w $tally 212 17 0",
        "marked: accepted 1, tally 0 (4 1 2); $made, 132 kept; $relations, 11 kept",
    ),
    (
        "declined: mark $contents+$alphabet+$rules+0202+$transitions $tally 212 18 3",
        "declined: declined 1, tally 0 (3 1 2) 3 (0 1 0); $made, 132 kept; $relations, 12 kept",
    ),
    (
        "turned away: mark - - 0 0 15",
        "turned away: refused 1, tally 15 (0 0 1); form 0 kept; relations 0 kept",
    ),
    (
        "17 from zero: mark $w - 2 1 1",
        "17 from zero: refused 17, tally; form 2 kept; relations 1 kept",
    ),
    (
        "19: mark $w $tally 212 16 0",
        "19: refused 19, tally 0 (3 1 2); form 212 kept; relations 16 kept",
    ),
    (
        "25: mark - $tally+2*$nobody+0000000000000000FFFFFFFF 4 99999 3",
        "25: refused 25, tally 0 (3 1 2) 3 (0 0 4294967295); form 4 kept; relations 4096 kept",
    ),
    (
        "beside a full one: mark - FFFFFFFF 4 0 1",
        "beside a full one: refused 1, tally 0 (4294967295 0 0) 1 (0 0 1); form 4 kept; \
         relations 0 kept",
    ),
    (
        "26: mark - FFFFFFFF 4 0 16",
        "26: refused 26, tally 0 (4294967295 0 0); form 4 kept; relations 0 kept",
    ),
    (
        "26 far beyond: mark $w 07 212 17 99999999999999999999",
        "26 far beyond: refused 26, tally 0 (7 0 0); form 212 kept; relations 17 kept",
    ),
    (
        "all of a tally: mark - 16*$tally+FF 0 0 15",
        "all of a tally: refused 1, $all 15 (3 1 3); form 0 kept; relations 0 kept",
    ),
];

const FORM_CALLS: [(&str, &str); 13] = [
    ("rule: rule $alphabet $form 5", "rule: rule 0 1 0 4 0 65535 65535"),
    ("no rule: rule $alphabet $form 6", "no rule: refused 21"),
    ("size: size $alphabet $form 13", "size: size 7; $counts, 1 kept"),
    ("short: size $alphabet $form 11", "short: refused 19; counts 11 kept"),
    ("label: label $alphabet $form 5 12", "label: terminal 0; $counts, 0 kept"),
    ("past: label $alphabet $form 7 12", "past: refused 21; counts 12 kept"),
    ("unfold: unfold $alphabet $form 12 8", "unfold: written 7; $tree, 1 kept; $counts, 0 kept"),
    ("into 6: unfold $alphabet $form 12 6", "into 6: refused 20; tree 6 kept; counts 12 kept"),
    ("mask: evaluate $alphabet 0201+$transitions $form 8", "mask: mask 1; $relations, 2 kept"),
    ("18: evaluate $alphabet 0201 010203 8", "18: refused 18; relations 8 kept"),
    ("28: unfold 000202 $form 12 8", "28: refused 28; tree 8 kept; counts 12 kept"),
    (
        "28 of evaluation: evaluate 0002 0201 $form 5",
        "28 of evaluation: refused 28; relations 5 kept",
    ),
    ("28 of rules: rules 00020100 $form", "28 of rules: refused 28"),
];

const ADDITIONS: [(&str, &str); 8] = [
    (
        "added: add $alphabet $called 0201+0000FFFFFFFF 020100FFFFFF 01+15*00+07+7*00 4",
        "added: mask 2; relations 1 2 7, 1 kept",
    ),
    (
        "later bits: add $alphabet $called 0201+0000FFFFFFFF 020100FFFFFF 0201+6*00+FFFF+6*00 2",
        "later bits: mask 0; relations 102 0, 0 kept",
    ),
    (
        "not touched: add $alphabet $called 0201+0000FFFFFFFF 01000000FFFF 05+7*00+3412+6*00 2",
        "not touched: mask 52; relations 5 1234, 0 kept",
    ),
    (
        "half a number: add $alphabet $called 0201+0000FFFFFFFF 01000000FFFF 05+7*00+7*00 3",
        "half a number: mask 165; relations 5, 2 kept",
    ),
    (
        "beyond the slice: add $alphabet $called 0201 0000FFFFFFFF 24*FF 2",
        "beyond the slice: mask 0; relations 1 0, 0 kept",
    ),
    ("29: add $alphabet $called 0201 00 07+7*00 2", "29: refused 29; relations 7, 1 kept"),
    (
        "14 of a full one: add $alphabet 00 0901+255*0000FFFFFFFF - - 1",
        "14 of a full one: refused 14; relations 1 kept",
    ),
    (
        "many numbers: add $alphabet $called 0201 0000FFFFFFFF - 99999",
        "many numbers: mask 0; relations 1 0, 4094 kept",
    ),
];

const TREE_CALLS: [(&str, &str); 5] = [
    ("walk: walk $alphabet 0201+$transitions 01+4*02+2*00 8", "walk: mask 1; $masks, 1 kept"),
    ("20 h: walk $alphabet 0201 20*02+00 22", "20 h: mask 0; masks 21*00, 1 kept"),
    ("K9: walk $alphabet 0201 0100 2", "K9: refused 23; masks 2 kept"),
    ("wrap: wrap $alphabet 00 0201 20", "wrap: written 20; $leaf, 0 kept"),
    ("24: wrap $alphabet 00 0201 0", "24: refused 24; sheet 0 kept"),
];

const PRACTICE: [(&str, &str); 7] = [
    ("even: practice 0100 0 1 31", "even: written 30; $even, 1 kept"),
    ("odd: practice 0100 2 1 31", "odd: written 31; $odd, 0 kept"),
    ("last x: practice 0100 4294967296 1 40", "last x: written 31; $odd, 9 kept"),
    ("27: practice - 0 0 4", "27: refused 27; sheet 4 kept"),
    (
        "27 far beyond: practice 0100 0 99999999999999999999 64",
        "27 far beyond: refused 27; sheet 64 kept",
    ),
    ("14 of practice: practice 01 0 20 0", "14 of practice: refused 14; sheet 0 kept"),
    ("24 of practice: practice 0100 0 1 29", "24 of practice: refused 24; sheet 29 kept"),
];

const STEPS: [(&str, &str); 7] = [
    ("accept: accept $tally 0", "accept: tally 0 (4 1 2)"),
    ("decline: decline $tally 3", "decline: tally 0 (3 1 2) 3 (0 1 0)"),
    ("turn away: turn_away - 15", "turn away: tally 15 (0 0 1)"),
    ("full: turn_away 03000000FFFFFFFF0001 0", "full: refused 25, tally 0 (3 4294967295 256)"),
    ("the next: accept 03000000FFFFFFFF0001 1", "the next: tally 0 (3 4294967295 256) 1 (1 0 0)"),
    ("nobody: decline $tally 16", "nobody: refused 26, tally 0 (3 1 2)"),
    ("nobody and no count: accept - 256", "nobody and no count: refused 26, tally"),
];

const UNREADABLE: [(&str, &str); 16] = [
    ("half a byte: line 0", "half a byte: unreadable"),
    ("small letters: line 0c", "small letters: unreadable"),
    ("no such call: lines 00", "no such call: unreadable"),
    ("too few: make 00", "too few: unreadable"),
    ("too many: line 00 00", "too many: unreadable"),
    ("no sheet: room", "no sheet: unreadable"),
    ("a room beside the sheet: room 00 212", "a room beside the sheet: unreadable"),
    ("no room for a board: blackboard 00", "no room for a board: unreadable"),
    ("two rooms for a board: blackboard 00 1 2", "two rooms for a board: unreadable"),
    ("nothing held: add 00 00 00 00 4", "nothing held: unreadable"),
    ("too much of adding: add 00 00 00 00 00 4 4", "too much of adding: unreadable"),
    ("no number: accept 03 x", "no number: unreadable"),
    ("three counts: accept 3 1 2", "three counts: unreadable"),
    ("no room: practice 0100 0 1", "no room: unreadable"),
    ("no call:", "no call: unreadable"),
    ("no colon", "no colon: unreadable"),
];

/// The input and the output.
pub fn sample() -> (String, String) {
    let on_forms = [&FORM_CALLS[..], &ADDITIONS].concat();
    let calls = [&SHEET_CALLS[..], &MARKINGS, &on_forms, &TREE_CALLS, &PRACTICE, &STEPS];
    let parts = [&HEADINGS[..], &calls.concat(), &UNREADABLE];
    let (rows, lines): (Vec<&str>, Vec<&str>) = parts.concat().into_iter().unzip();
    (filled(&rows.join("\n")) + "\n", filled(&lines.join("\n")) + "\n")
}

fn filled(text: &str) -> String {
    let words = [
        ("$w", "$contents+$alphabet+$rules+0201+$transitions"),
        ("$contents", CONTENTS),
        ("$alphabet", ALPHABET),
        ("$rules", RULES),
        ("$transitions", TRANSITIONS),
        ("$form", FORM),
        ("$called", CALLED),
        ("$made", MADE),
        ("$relations", RELATIONS),
        ("$counts", COUNTS),
        ("$tree", TREE),
        ("$masks", MASKS),
        ("$leaf", LEAF),
        ("$small", LEAF_FORM),
        ("$even", EVEN),
        ("$odd", ODD),
        ("$tally", TALLY),
        ("$nobody", NOBODY),
        ("$all", &all_but_the_last()),
    ];
    words.iter().fold(text.to_string(), |text, (word, bytes)| text.replace(word, bytes))
}

/// What is printed of a tally in which each candidate but the last has 3, 1 and 2.
fn all_but_the_last() -> String {
    let counts = (0..15).map(|candidate| format!(" {candidate} (3 1 2)"));
    format!("tally{}", counts.collect::<String>())
}
