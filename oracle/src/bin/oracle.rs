//! The program `oracle`: sheets from standard input, the Rust's answers to standard output.
use std::io::{self, BufWriter, Read, Write};
use std::process::ExitCode;

use oracle::run::{Finished, Stop};
use oracle::sheet::Sheet;
use oracle::{batch, views};

const HELP: &str = "\
oracle [--batch] [--out-len N] [--unchecked] [--paper | --list | --graph] < sheet

Prints the finished sheet, or R,n for a refusal.

--batch      Standard input holds many sheets, each followed by the four bytes '---' and byte 10. The mark ends a
             sheet wherever it stands, so a sheet may lack its last byte 10 or be empty. A sheet that holds the mark
             can't be carried. Bytes after the last mark are one more sheet. Each answer is followed by the mark.
--out-len N  Answers as if the output lent had N bytes; 16384 unless given.
--unchecked  Leaves out 7 to 9, 12 and 13, which the Rust does not check: shows what it makes of such a sheet. It may panic, or not end.
--paper      Prints the right paper: the P lines as finished, then a G line for each edge whose consumer was not removed.
--list       Prints, for each list of expressions that is looked at, L,visit,step,allow,answer,observed,looks and the
             list's entries, then the E lines as they stand after it. Visits count from 1. allow is 1 if the last
             look may remove sorts at the top. answer and observed add 1 for COLUMN and 2 for INDEPENDENT; observed is
             what the visit has observed internally so far. R,n comes last for a refusal.
--graph      Prints V and the visiting list, then a G line for each edge, as they stand before the walks.

A panic other than the assertions behind 10 and 11 is told on standard error with its sheet, and the status is 1.
";

enum View {
    Finished,
    Paper,
    Lists,
    Graph,
}

struct Options {
    batch: bool,
    out_len: usize,
    unchecked: bool,
    view: View,
}

fn main() -> ExitCode {
    let options = match options() {
        Ok(Some(options)) => options,
        Ok(None) => {
            print!("{HELP}");
            return ExitCode::SUCCESS;
        },
        Err(message) => {
            eprint!("{message}");
            return ExitCode::from(2);
        },
    };

    match answer_all(&options) {
        Ok(true) => ExitCode::SUCCESS,
        Ok(false) => ExitCode::FAILURE,
        Err(error) => {
            eprintln!("oracle: {error}");
            ExitCode::from(2)
        },
    }
}

/// The options, or nothing if help is asked for.
fn options() -> Result<Option<Options>, String> {
    let mut options = Options { batch: false, out_len: oracle::LEAST_OUTPUT, unchecked: false, view: View::Finished };

    let mut words = std::env::args().skip(1);
    while let Some(word) = words.next() {
        match word.as_str() {
            "--batch" => options.batch = true,
            "--unchecked" => options.unchecked = true,
            "--paper" => options.view = View::Paper,
            "--list" => options.view = View::Lists,
            "--graph" => options.view = View::Graph,
            "--out-len" => {
                let number = words.next().and_then(|number| number.parse().ok());
                options.out_len = number.ok_or("oracle: --out-len takes a number\n")?;
            },
            "--help" => return Ok(None),
            _ => return Err(HELP.to_string()),
        }
    }

    Ok(Some(options))
}

/// Whether every panic was one that a refusal stands for.
fn answer_all(options: &Options) -> io::Result<bool> {
    let mut input = vec![];
    io::stdin().lock().read_to_end(&mut input)?;
    let mut output = BufWriter::new(io::stdout().lock());

    let mut foreseen = true;
    if options.batch {
        for sheet in batch::sheets(&input) {
            foreseen &= answer(sheet, options, &mut output)?;
            output.write_all(batch::MARK)?;
        }
    } else {
        foreseen = answer(&input, options, &mut output)?;
    }

    output.flush()?;
    Ok(foreseen)
}

fn answer(sheet: &[u8], options: &Options, output: &mut impl Write) -> io::Result<bool> {
    let (text, result) = text(sheet, options);
    output.write_all(&text)?;

    match result {
        Ok(()) => Ok(true),
        Err(Stop::Refused(number)) => writeln!(output, "R,{number}").map(|()| true),
        Err(Stop::Panicked(report)) => {
            eprintln!("oracle: {report}\non the sheet\n{}", String::from_utf8_lossy(sheet));
            Ok(false)
        },
    }
}

/// What is printed for the sheet, and how the run ended.
fn text(sheet: &[u8], options: &Options) -> (Vec<u8>, Result<(), Stop>) {
    let read = if options.unchecked { oracle::unchecked } else { oracle::checked };
    let sheet = match read(sheet, options.out_len) {
        Ok(sheet) => sheet,
        Err(number) => return (vec![], Err(Stop::Refused(number))),
    };

    match options.view {
        View::Lists => views::lists(&sheet),
        View::Graph => (views::graph(&sheet), Ok(())),
        View::Finished => run(&sheet, Finished::text),
        View::Paper => run(&sheet, Finished::paper),
    }
}

/// What is told of a run that comes to its end.
fn run(sheet: &Sheet, told: impl Fn(&Finished) -> Vec<u8>) -> (Vec<u8>, Result<(), Stop>) {
    match oracle::run::run(sheet) {
        Ok(finished) => (told(&finished), Ok(())),
        Err(stop) => (vec![], Err(stop)),
    }
}
