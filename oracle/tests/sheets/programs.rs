//! The programs: one sheet, a batch, and the views.
use std::io::Write;
use std::process::{Command, Stdio};

const SHEET: &str = "P,14,0,0,0,0,0,0\nP,2,1,0,0,1,0,0,0\n";
const FINISHED: &str = "P,14,0,0,0,0,0,0\nP,2,0,0,0,1,0,0,0\nG,1,0,0\nT,0,4,0\n";

fn oracle(options: &[&str], input: &str) -> String {
    let mut program = Command::new(env!("CARGO_BIN_EXE_oracle"))
        .args(options)
        .stdin(Stdio::piped())
        .stdout(Stdio::piped())
        .spawn()
        .unwrap();
    program.stdin.take().unwrap().write_all(input.as_bytes()).unwrap();
    let output = program.wait_with_output().unwrap();
    assert!(output.status.success());
    String::from_utf8(output.stdout).unwrap()
}

fn generated(words: &[&str]) -> String {
    let output = Command::new(env!("CARGO_BIN_EXE_gen")).args(words).output().unwrap();
    assert!(output.status.success());
    String::from_utf8_lossy(&output.stdout).into_owned()
}

#[test]
fn one_sheet() {
    assert_eq!(oracle(&[], SHEET), FINISHED);
    assert_eq!(oracle(&[], ""), "R,6\n");
}

#[test]
fn a_batch() {
    let unended = SHEET.trim_end();
    let batch = format!("{SHEET}---\n---\n{unended}---\n-----\n{SHEET}");
    let answers = format!("{FINISHED}---\nR,6\n---\nR,3\n---\nR,3\n---\n{FINISHED}---\n");
    assert_eq!(oracle(&["--batch"], &batch), answers);
    assert_eq!(oracle(&["--batch"], ""), "");
}

#[test]
fn a_short_output() {
    assert_eq!(oracle(&["--out-len", "16383"], SHEET), "R,1\n");
    assert_eq!(oracle(&["--out-len", "16384"], SHEET), FINISHED);
}

#[test]
fn views() {
    let sheet = "E,0,0,1,0\nP,0,0,0,0,0,0,0\nP,3,0,0,0,1,1,0,0,0\nP,2,1,0,0,1,0,0,1\n";
    assert_eq!(oracle(&["--graph"], sheet), "V,2,1,0\nG,2,0,1\nG,1,0,1\n");
    assert_eq!(oracle(&["--list"], sheet), "L,2,1,0,1,0,1,0\nE,0,0,1,0\nL,5,1,0,1,0,1,0\nE,0,0,1,0\n");
    assert_eq!(oracle(&["--graph"], ""), "R,6\n");
}

#[test]
fn the_generator_prints_batches_and_shares() {
    let batch = generated(&["noise", "3", "50"]);
    assert_eq!(batch.matches("---\n").count(), 50);
    assert_eq!(oracle(&["--batch"], &generated(&["small", "3", "50"])).matches("---\n").count(), 50);
    assert!(generated(&["--share", "valid", "3", "50"]).contains("finished"));
}
