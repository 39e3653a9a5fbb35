//! The rows of program `examples`: its stored output is what the reference says, and what differs
//! is found.

mod sample;

use compare::rows::{differences, line, stored};
use sample::sample;

#[test]
fn the_stored_output_is_the_reference_s() {
    let input = stored::input();
    let found = differences(&input, &stored::output());
    assert!(found.is_empty(), "{}", found.join("\n"));
    assert!(line::count(&input) > 3000);
}

#[test]
fn the_sample_has_every_call() {
    let (input, output) = sample();
    let found = differences(&input, &output);
    assert!(found.is_empty(), "{}", found.join("\n"));
    assert_eq!(line::count(&input), 83);
}

/// What is found after the first such text behind the row's name was changed in the output.
fn planted(row: &str, right: &str, wrong: &str) -> String {
    let (input, output) = sample();
    let place = output.find(&format!("\n{row}: ")).expect("a row of that name");
    let (before, behind) = output.split_at(place);
    let changed = behind.replacen(right, wrong, 1);
    assert_ne!(changed, behind);
    let found = differences(&input, &format!("{before}{changed}"));
    assert_eq!(found.len(), 1, "{}", found.join("\n"));
    assert!(found[0].contains(&format!(", {row}\n")), "{}", found[0]);
    found[0].clone()
}

#[test]
fn a_changed_answer_is_found() {
    let told = planted("walk", "mask 1", "mask 3");
    assert!(told.contains("\nexpected walk: mask 1; masks 01 01"), "{told}");
    assert!(told.contains("\nfound    walk: mask 3; masks 01 01"), "{told}");
    planted("certified", "mask 1", "mask 0");
    planted("marked", "accepted 1", "declined 1");
    planted("marked", "tally 0 (4 1 2)", "tally 0 (3 1 2)");
    planted("marked", "tally 0 (4 1 2)", "tally 1 (4 1 2)");
    planted("26", "tally 0 (4294967295 0 0)", "tally");
    planted("nobody", "refused 26, tally 0 (3 1 2)", "refused 26");
    planted("17", "refused 17", "refused 1");
    planted("made", "written 80", "written 88");
    planted("asked", "asked 212 17", "asked 80 17");
    planted("asked", "asked 212 17", "asked 212 6");
    planted("asked", "asked 212 17", "asked 17 212");
    planted("none asked", "refused 1", "asked 0 0");
    planted("board", "mask 1", "mask 0");
    planted("dropped", "mask 1", "mask 0");
    planted("short board", "refused 19", "refused 17");
    planted("no board", "refused 1", "refused 19");
    planted("even", "written 30", "written 31");
    planted("27", "refused 27", "refused 14");
    planted("28", "refused 28", "refused 18");
    planted("added", "mask 2", "mask 0");
    planted("not touched", "mask 52", "mask 180");
    planted("29", "refused 29", "refused 14");
}

#[test]
fn a_changed_slice_is_found() {
    planted("size", "1 kept", "2 kept");
    planted("made", "136 kept", "135 kept");
    planted("marked", "relations 1 102", "relations 1 103");
    planted("certified", "counts 1 0", "counts 1 1");
    planted("20 h", "21*00", "20*00");
    planted("25", "; form 4 kept", "; form 00, 3 kept");
    planted("board", "01 02 4094*00", "03 4095*00");
    planted("board", "01 02 4094*00", "01 02 9*00 01 4084*00");
    planted("board", "2 kept", "1 kept");
    planted("short board", "; table 12287 kept", "; table 4096*00, 8191 kept");
    planted("odd", "40 80 00", "00 40 80");
    planted("28", "; counts 12 kept", "; counts 1, 11 kept");
    planted("added", "relations 1 2 7", "relations 1 0 7");
    planted("added", "7, 1 kept", "0, 1 kept");
    planted("later bits", "relations 102", "relations 2");
    planted("29", "relations 7", "relations 0");
    planted("24 of practice", "; sheet 29 kept", "; sheet 0c, 28 kept");
}

#[test]
fn a_form_that_may_not_be_made_is_found() {
    let told = planted("made", "form 06", "form 05");
    assert!(told.contains("but the form is not valid"), "{told}");
    let told = planted("made", "03 00 02 01", "03 00 02 02");
    assert!(told.contains("but the form's head has ranks [0, 2, 2]"), "{told}");
    let told = planted("certified", "00 03 00 02 01 00", "00 00");
    assert!(told.contains("but the form's head has ranks []"), "{told}");
    // The start is rule 4, without f.
    let told = planted("marked", "form 06 00 05", "form 06 00 04");
    assert!(told.contains("but the form derives another tree"), "{told}");
    let told = planted("certified", "; form ", "; from ");
    assert!(told.contains("but no form can be read there"), "{told}");
    planted("made", "form 06", "form 99999999999*06");
}

#[test]
fn a_line_too_few_or_too_many_is_found() {
    let (input, output) = sample();
    let lines: Vec<&str> = output.lines().collect();
    for missing in 0..lines.len() {
        let left = [&lines[..missing], &lines[missing + 1..]].concat().join("\n");
        let found = differences(&input, &left);
        assert!(found[0].contains("expected 86 lines\nfound    85"), "{}", found[0]);
    }
    assert_eq!(differences(&input, &format!("{output}more\n")).len(), 1);
    assert_eq!(differences(&input, output.trim_end()).len(), 1);
}

#[test]
fn every_changed_sign_is_found() {
    let (input, output) = sample();
    for (row, stored) in input.lines().zip(output.lines()) {
        for (place, sign) in stored.char_indices() {
            let other = if sign == '1' { '0' } else { '1' };
            let changed = format!("{}{other}{}\n", &stored[..place], &stored[place + 1..]);
            assert_eq!(differences(row, &changed).len(), 1, "{changed}");
        }
    }
}
