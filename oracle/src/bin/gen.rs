//! The program `gen`: a batch of random sheets on standard output.
use std::io::{self, BufWriter, Write};
use std::process::ExitCode;

use oracle::batch;
use oracle::generate::share::Shares;
use oracle::generate::{FAMILIES, Family, sheet};

const HELP: &str = "\
gen [--share] FAMILY SEED COUNT

Prints a batch of COUNT sheets, each followed by '---' and byte 10. The same words give the same batch everywhere.
With --share it prints instead in how many of 100 sheets each answer, kind and option value comes up.

FAMILY is one of
valid   plans of all sizes without a fault, most of them accepted
small   a few lines, and less care for keys
limit   at 128 expressions and 32 steps, now and then one more
deep    long chains and high trees
near    a valid sheet with one or two faults put in
noise   random bytes and damaged text
uses    a valid sheet with one to four lines named by none or too often, or Cache lines that share an id
";

fn main() -> ExitCode {
    let mut words: Vec<String> = std::env::args().skip(1).collect();
    if words == ["--help"] {
        print!("{HELP}");
        return ExitCode::SUCCESS;
    }
    let share = words.first().is_some_and(|word| word == "--share");
    if share {
        words.remove(0);
    }

    let Some((family, seed, count)) = parse(&words) else {
        eprint!("{HELP}");
        return ExitCode::from(2);
    };

    let result = if share {
        let mut shares = Shares::default();
        for number in 0..count {
            shares.count(&sheet(family, seed, number));
        }
        io::stdout().write_all(shares.text().as_bytes())
    } else {
        print_batch(family, seed, count)
    };

    match result {
        Ok(()) => ExitCode::SUCCESS,
        Err(error) => {
            eprintln!("gen: {error}");
            ExitCode::from(2)
        },
    }
}

fn parse(words: &[String]) -> Option<(Family, u64, u64)> {
    let [family, seed, count] = words else {
        return None;
    };
    let (_, family) = FAMILIES.iter().find(|(name, _)| name == family)?;
    Some((*family, seed.parse().ok()?, count.parse().ok()?))
}

fn print_batch(family: Family, seed: u64, count: u64) -> io::Result<()> {
    let mut output = BufWriter::new(io::stdout().lock());
    for number in 0..count {
        output.write_all(&sheet(family, seed, number))?;
        output.write_all(batch::MARK)?;
    }
    output.flush()
}
