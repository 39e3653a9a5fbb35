//! The table for a lesson: marking, which is form making and evaluation, beside the blackboard method.

/// The engine's microseconds for a sheet.
pub struct Row {
    pub sheet: &'static str,
    pub rules: usize,
    pub make_form: f64,
    pub evaluate: f64,
    pub mark: f64,
    pub blackboard: f64,
}

/// One line for each sheet, which ends with the blackboard method's time over that of marking.
pub fn print(rows: &[Row]) {
    println!(
        "{:16} {:>5} {:>12} {:>11} {:>9} {:>13} {:>7}",
        "sheet", "rules", "make form us", "evaluate us", "mark us", "blackboard us", "ratio"
    );
    for Row { sheet, rules, make_form, evaluate, mark, blackboard } in rows {
        let ratio = blackboard / mark;
        print!("{sheet:16} {rules:5} {make_form:12.3} {evaluate:11.3} {mark:9.3} ");
        println!("{blackboard:13.3} {ratio:7.1}");
    }
}
