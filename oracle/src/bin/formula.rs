//! The program `formula`: one formula from standard input, its lines by the reference to standard output.
use std::io::{self, Read, Write};
use std::process::ExitCode;

use oracle::LEAST_OUTPUT;
use oracle::formula::{convert, with_stack};

const HELP: &str = "\
formula [--out-len N] < formula

Prints the formula's E lines, or R,n for a refusal. All bytes of standard input are the formula; an end of line is none.

--out-len N  Answers as if the output lent had N bytes; 16384 unless given.
";

fn main() -> ExitCode {
    let words: Vec<String> = std::env::args().skip(1).collect();
    let words: Vec<&str> = words.iter().map(String::as_str).collect();
    let out_len = match words[..] {
        [] => Some(LEAST_OUTPUT),
        ["--out-len", number] => number.parse().ok(),
        ["--help"] => {
            print!("{HELP}");
            return ExitCode::SUCCESS;
        },
        _ => None,
    };
    let Some(out_len) = out_len else {
        eprint!("{HELP}");
        return ExitCode::from(2);
    };

    match answer(out_len) {
        Ok(()) => ExitCode::SUCCESS,
        Err(error) => {
            eprintln!("formula: {error}");
            ExitCode::from(2)
        },
    }
}

fn answer(out_len: usize) -> io::Result<()> {
    let mut formula = vec![];
    io::stdin().lock().read_to_end(&mut formula)?;
    let text = match with_stack(|| convert(&formula, out_len)) {
        Ok(text) => text,
        Err(number) => format!("R,{number}\n").into_bytes(),
    };
    io::stdout().lock().write_all(&text)
}
