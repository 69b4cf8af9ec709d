//! The program `formula`.
use std::io::Write;
use std::process::{Command, Output, Stdio};

fn run(options: &[&str], input: &[u8]) -> Output {
    let mut program = Command::new(env!("CARGO_BIN_EXE_formula"))
        .args(options)
        .stdin(Stdio::piped())
        .stdout(Stdio::piped())
        .stderr(Stdio::piped())
        .spawn()
        .unwrap();
    // A program that takes no input may have ended.
    let _ = program.stdin.take().unwrap().write_all(input);
    program.wait_with_output().unwrap()
}

fn formula(options: &[&str], input: &[u8]) -> String {
    let output = run(options, input);
    assert!(output.status.success());
    String::from_utf8(output.stdout).unwrap()
}

#[test]
fn one_formula() {
    assert_eq!(formula(&[], b"a + 1"), "E,0,0,1,0\nE,1,1,0,0\nE,5,0,1,0,0,1\n");
    for input in [&b""[..], b"a + 1\n", b"\xE1"] {
        assert_eq!(formula(&[], input), "R,14\n");
    }
    assert_eq!(formula(&[], &[b'('; 16_384]), "R,14\n");
    assert_eq!(formula(&[], &[b'('; 16_385]), "R,2\n");
}

#[test]
fn a_short_output() {
    assert_eq!(formula(&["--out-len", "16383"], b"a"), "R,1\n");
    assert_eq!(formula(&["--out-len", "16384"], b"a"), "E,0,0,1,0\n");
}

#[test]
fn other_words() {
    assert!(formula(&["--help"], b"").starts_with("formula [--out-len N]"));
    for words in [&["--out-len"][..], &["--out-len", "x"], &["a"]] {
        let output = run(words, b"a");
        assert_eq!((output.status.code(), output.stdout.len()), (Some(2), 0));
    }
}
