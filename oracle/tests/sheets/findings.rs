//! What docs/DIFFERENCES.md tells, sheet by sheet.
use oracle::run::Stop;
use oracle::sheet::{ExprLine, Sheet, StepLine};

use crate::{answer, lines, list_lines};

const SCAN: &str = "P,0,0,0,0,0,0,0\n";
const SINK: &str = "P,2,0,0,0,1,0,0,0\n";

/// The Rust's answer to a sheet whose lines are in order, the refusals 7 to 9, 12 and 13 left out.
fn unchecked(sheet: &str) -> Result<String, Stop> {
    let lines = oracle::unchecked(sheet.as_bytes(), oracle::LEAST_OUTPUT).unwrap();
    let finished = oracle::run::run(&lines)?;
    Ok(String::from_utf8(finished.text()).unwrap())
}

fn expr(kind: u8, children: Vec<u8>) -> ExprLine {
    ExprLine { kind, children, ..ExprLine::default() }
}

fn step(kind: u8, inputs: Vec<u8>, exprs: Vec<u8>) -> StepLine {
    StepLine { kind, inputs, exprs, ..StepLine::default() }
}

/// The sheet is refused by that number, and the Rust finishes it so.
fn taken_by_the_rust(number: u8, sheet: &str, rest: &str) {
    assert_eq!(answer(sheet), format!("R,{number}\n"));
    let finished = unchecked(sheet).unwrap();
    assert!(finished.ends_with(rest), "{finished}");
}

/// The sheet is refused by that number, and the Rust panics with a message that has these words.
fn a_panic_in_the_rust(number: u8, sheet: &str, words: &str) {
    assert_eq!(answer(sheet), format!("R,{number}\n"));
    match unchecked(sheet) {
        Err(Stop::Panicked(report)) => assert!(report.contains(words), "{report}"),
        other => panic!("{other:?}"),
    }
}

#[test]
fn the_rust_has_no_limits_of_its_own() {
    assert_eq!(answer(""), "R,6\n");
    let finished = oracle::run::run(&Sheet::default()).map(|finished| finished.text());
    assert_eq!(finished, Ok(b"T,0,0,0\n".to_vec()));

    let mut chain = Sheet::default();
    chain.steps.push(step(0, vec![], vec![]));
    for input in 0..200 {
        chain.exprs.push(expr(0, vec![]));
        chain.steps.push(step(3, vec![input], vec![input]));
    }
    chain.steps.push(step(2, vec![200], vec![]));
    assert_eq!(answer(&String::from_utf8(chain.text()).unwrap()), "R,5\n");
    assert_eq!(oracle::run::run(&chain).unwrap().tally.visits, 404);
}

#[test]
fn a_min_by_of_one() {
    let sheet = Sheet {
        exprs: vec![expr(0, vec![]), expr(18, vec![0])],
        steps: vec![step(0, vec![], vec![]), step(3, vec![0], vec![1]), step(2, vec![1], vec![])],
    };
    assert_eq!(answer(&String::from_utf8(sheet.text()).unwrap()), "R,4\n");
    match oracle::run::run(&sheet).map(|finished| finished.text()) {
        Err(Stop::Panicked(report)) => assert!(report.contains("left == right"), "{report}"),
        other => panic!("{other:?}"),
    }
}

#[test]
fn an_earlier_line_is_not_asked_for() {
    taken_by_the_rust(7, "P,2,0,0,0,1,0,0,1\nP,0,0,0,0,0,0,0\n", "G,0,0,0\nT,0,4,0\n");
    let sheet = format!("E,7,0,1,0,1\nE,0,0,1,0\n{SCAN}P,3,0,0,0,1,1,0,0,0\nP,2,0,0,0,1,0,0,1\n");
    taken_by_the_rust(7, &sheet, "T,0,6,8\n");
}

#[test]
fn a_line_that_is_not_there_or_a_sink_as_input() {
    a_panic_in_the_rust(7, &format!("{SCAN}P,2,0,0,0,1,0,0,2\n"), "index out of bounds");
    a_panic_in_the_rust(7, &format!("{SCAN}{SINK}P,2,0,0,0,1,0,0,1\n"), "current_edges.in_edges.is_empty()");
}

#[test]
fn a_reference_that_is_never_followed() {
    // The keys of a sort that goes at its first visit: no line 200, and a key that names itself.
    let keys = |key| format!("{SCAN}P,5,0,0,0,1,1,0,0,{key}\nP,2,0,0,0,1,0,0,1\n");
    taken_by_the_rust(7, &keys(200), "G,2,0,0\nG,1,0,0\nT,1,5,0\n");
    taken_by_the_rust(7, &format!("E,7,0,1,0,0\n{}", keys(0)), "G,2,0,0\nG,1,0,0\nT,1,5,0\n");
    // A step that no Sink leads to: over a line that is not there, over itself, over a Sink.
    for input in [200, 2, 1] {
        taken_by_the_rust(7, &format!("{SCAN}{SINK}P,15,0,0,0,1,0,0,{input}\n"), "G,1,0,0\nT,0,4,0\n");
    }
    // An expression that no step names.
    taken_by_the_rust(7, &format!("E,7,0,1,0,0\n{SCAN}{SINK}"), "G,1,0,0\nT,0,4,0\n");
}

#[test]
fn lines_named_by_none() {
    taken_by_the_rust(8, &format!("E,0,0,1,0\n{SCAN}{SINK}"), "G,1,0,0\nT,0,4,0\n");
    taken_by_the_rust(8, &format!("{SCAN}{SCAN}P,2,0,0,0,1,0,0,1\n"), "G,2,0,0\nT,0,4,0\n");
    taken_by_the_rust(8, SCAN, "T,0,0,0\n");
}

#[test]
fn lines_named_twice() {
    taken_by_the_rust(12, &format!("{SCAN}{SINK}{SINK}"), "G,1,0,0\nG,2,0,0\nT,0,8,0\n");
    let sheet = format!("E,0,0,1,0\n{SCAN}P,3,0,0,0,1,2,0,0,0,0\nP,2,0,0,0,1,0,0,1\n");
    taken_by_the_rust(12, &sheet, "T,0,6,4\n");
    let sheet = format!("E,0,0,1,0\n{SCAN}P,3,0,0,0,1,1,0,0,0\nP,3,0,0,0,1,1,0,1,0\nP,2,0,0,0,1,0,0,2\n");
    taken_by_the_rust(12, &sheet, "T,0,8,8\n");
    for kind in [1, 14] {
        taken_by_the_rust(12, &format!("P,{kind},0,0,0,0,0,0\n{SINK}{SINK}"), "G,1,0,0\nG,2,0,0\nT,0,8,0\n");
    }
    let sheet = format!("{SCAN}P,9,0,0,0,2,0,0,0,0\nP,2,0,0,0,1,0,0,1\n");
    taken_by_the_rust(12, &sheet, "G,2,0,0\nG,1,0,0\nG,1,1,0\nT,0,8,0\n");
    // A step with an input panics instead, as does a Union without one.
    let sheet = format!("{SCAN}P,15,0,0,0,1,0,0,0\nP,2,0,0,0,1,0,0,1\nP,2,0,0,0,1,0,0,1\n");
    a_panic_in_the_rust(12, &sheet, "current_edges.in_edges.is_empty()");
    let sheet = format!("P,11,0,0,0,0,0,0\n{SINK}{SINK}");
    a_panic_in_the_rust(12, &sheet, "left == right");
    // Not so if no Sink leads to one of the two that name it.
    let sheet = format!("{SCAN}P,15,0,0,0,1,0,0,0\nP,2,0,0,0,1,0,0,1\nP,15,0,0,0,1,0,0,1\n");
    taken_by_the_rust(12, &sheet, "G,2,0,0\nG,1,0,1\nT,0,6,0\n");
}

#[test]
fn two_caches_with_one_id() {
    let sheet = "\
P,0,0,0,0,0,0,0
P,18,5,0,0,1,0,0,0
P,18,5,0,0,1,0,0,0
P,2,0,0,0,1,0,0,1
P,2,0,0,0,1,0,0,2
";
    // The Scan is named twice.
    taken_by_the_rust(12, sheet, "G,3,0,0\nG,4,0,0\nG,2,0,0\nT,0,10,0\n");

    // Of two inputs, that of the line which the first pass meets first is followed, and written into the other.
    let sheet = "\
P,0,0,0,0,0,0,0
P,0,0,0,0,0,0,0
P,18,5,0,0,1,0,0,0
P,18,5,0,0,1,0,0,1
P,2,0,0,0,1,0,0,2
P,2,0,0,0,1,0,0,3
";
    taken_by_the_rust(13, sheet, "G,4,0,0\nG,5,0,0\nG,3,0,0\nT,0,10,0\n");
    assert_eq!(lines(&unchecked(sheet).unwrap(), 'P')[2..4], ["P,18,5,0,0,1,0,0,1", "P,18,5,0,0,1,0,0,1"]);

    // A Cache of another id as the common input.
    let sheet = "\
P,0,0,0,0,0,0,0
P,18,6,0,0,1,0,0,0
P,18,5,0,0,1,0,0,1
P,18,5,0,0,1,0,0,1
P,2,0,0,0,1,0,0,2
P,2,0,0,0,1,0,0,3
";
    taken_by_the_rust(13, sheet, "G,4,0,0\nG,5,0,0\nG,3,0,0\nG,1,0,0\nT,0,12,0\n");

    // One over the other.
    let sheet = format!("{SCAN}P,18,5,0,0,1,0,0,0\nP,18,5,0,0,1,0,0,1\nP,2,0,0,0,1,0,0,2\n");
    a_panic_in_the_rust(13, &sheet, "left == right");
}

#[test]
fn a_struct_field_outside() {
    // Never looked at, since the sort goes at its first visit.
    let keys = format!("E,3,0,1,0\n{SCAN}P,5,0,0,0,1,1,0,0,0\nP,2,0,0,0,1,0,0,1\n");
    taken_by_the_rust(9, &keys, "G,2,0,0\nG,1,0,0\nT,1,5,0\n");
    a_panic_in_the_rust(9, &keys.replace("P,2,0", "P,2,1"), "`Option::unwrap()` on a `None`");

    // Never looked at, since what it sorts takes the place of the SortBy at its first look, here under Min.
    let exprs = "E,0,0,1,0\nE,3,0,1,0\nE,10,0,1,0,0,1\nE,22,1,0,0,2\n";
    let by = format!("{exprs}{SCAN}P,3,0,0,0,1,1,0,0,3\nP,2,0,0,0,1,0,0,1\n");
    taken_by_the_rust(9, &by, "G,2,0,0\nG,1,0,0\nT,0,6,5\n");
    // Under First the SortBy stays, and its `by` is looked at.
    a_panic_in_the_rust(9, &by.replace("E,22", "E,21"), "`Option::unwrap()` on a `None`");
}

#[test]
fn first_loses_the_order_that_it_observes() {
    let sheet = "\
E,0,0,1,0
E,9,0,1,0,0
E,3,0,1,0
E,21,1,0,0,2
E,15,0,1,0,1,3
P,0,0,0,0,0,0,0
P,3,0,0,0,1,1,0,0,4
P,2,0,0,0,1,0,0,1
";
    let finished = "\
E,0,0,1,0
E,0,0,1,0
E,3,0,1,0
E,21,1,0,0,2
E,15,0,1,0,1,3
P,0,0,0,0,0,0,0
P,3,0,0,0,1,1,0,0,4
P,2,0,0,0,1,0,0,1
G,2,0,0
G,1,0,0
T,0,6,19
";
    assert_eq!(answer(sheet), finished);
    // The first visit sees First observe the sort's order (2) and takes the sort away; the second sees it observe
    // the column's (1), when the edge is already unordered.
    let (lists, _) = list_lines(sheet);
    let observed: Vec<&str> = lists.iter().map(|line| line.split(',').nth(5).unwrap()).collect();
    assert_eq!(observed, ["2", "1"]);

    // A Sort step below goes too.
    let with_sort = sheet.replace(
        "P,3,0,0,0,1,1,0,0,4\nP,2,0,0,0,1,0,0,1\n",
        "P,5,0,0,0,1,0,0,0\nP,3,0,0,0,1,1,0,1,4\nP,2,0,0,0,1,0,0,2\n",
    );
    assert_eq!(lines(&answer(&with_sort), 'T'), ["T,1,7,19"]);

    // Under Min, the Sink may keep order.
    let under_min = sheet
        .replace("P,0,0,0,0,0,0,0\n", "E,22,1,0,0,4\nP,0,0,0,0,0,0,0\n")
        .replace("1,1,0,0,4\nP,2,0", "1,1,0,0,5\nP,2,1");
    assert_eq!(lines(&answer(&under_min), 'G'), ["G,2,0,0", "G,1,0,0"]);
}

#[test]
fn a_sort_by_goes_on_the_second_visit_only() {
    let sheet = "\
E,0,0,1,0
E,9,0,0,0,0
E,10,0,1,0,1
P,0,0,0,0,0,0,0
P,3,0,0,0,1,1,0,0,2
P,2,0,0,0,1,0,0,1
";
    let finished = answer(sheet);
    assert_eq!(lines(&finished, 'E'), ["E,0,0,1,0", "E,0,0,1,0", "E,0,0,1,0"]);

    let checked = oracle::checked(sheet.as_bytes(), oracle::LEAST_OUTPUT).unwrap();
    let text = String::from_utf8(oracle::views::lists(&checked).0).unwrap();
    let after_each: Vec<&str> = text.lines().filter(|line| !line.starts_with('L')).collect();
    assert_eq!(after_each[..3], ["E,0,0,1,0", "E,0,0,1,0", "E,10,0,1,0,1"]);
    assert_eq!(after_each[3..], ["E,0,0,1,0", "E,0,0,1,0", "E,0,0,1,0"]);

    // With one more above, the upper one stays.
    let two = sheet.replace("E,10,0,1,0,1\n", "E,10,0,0,0,1\nE,10,0,1,0,2\n").replace("1,1,0,0,2", "1,1,0,0,3");
    assert_eq!(lines(&answer(&two), 'E'), ["E,0,0,1,0", "E,0,0,1,0", "E,0,0,1,0", "E,10,0,1,0,2"]);
}

#[test]
fn a_map_function_never_loosens_its_input() {
    for function in 0..8 {
        let sheet = format!("{SCAN}P,13,{function},0,0,1,0,0,0\nP,2,0,0,0,1,0,0,1\n");
        assert_eq!(lines(&answer(&sheet), 'G')[1], "G,1,0,1");
        let sorted = format!("{SCAN}P,5,0,0,0,1,0,0,0\nP,13,{function},0,0,1,0,0,1\nP,2,0,0,0,1,0,0,2\n");
        assert!(answer(&sorted).contains("\nT,0,"));
    }
}

#[test]
fn a_finished_sheet_need_not_be_acceptable() {
    let again = |sheet: &str| {
        let finished = answer(sheet);
        let lines: Vec<&str> = finished.lines().filter(|line| !line.starts_with(['G', 'T'])).collect();
        answer(&(lines.join("\n") + "\n"))
    };
    // What a removed sort names is named twice.
    assert_eq!(again(&format!("{SCAN}P,5,0,0,0,1,0,0,0\nP,2,0,0,0,1,0,0,1\n")), "R,12\n");
    // The child of a copied record is named twice.
    let exprs = "E,0,0,1,0\nE,7,0,1,0,0\nE,9,0,1,0,1\n";
    assert_eq!(again(&format!("{exprs}{SCAN}P,3,0,0,0,1,1,0,0,2\nP,2,0,0,0,1,0,0,1\n")), "R,12\n");
}
