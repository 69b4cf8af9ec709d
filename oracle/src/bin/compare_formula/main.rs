//! The program `compare_formula`: formulas converted by the library and by the reference in one process, compared and timed.
//! compare_formula.sh builds it.
mod asked;
mod library;
mod strings;
mod times;

use std::process::ExitCode;

use oracle::generate::formulas::formula;

use crate::asked::Totals;

fn help() -> String {
    let (lent, one_of, [short, least]) = (asked::LENT, asked::ONE_OF, asked::SHORTER);
    let rounds = times::PASSES * times::ROUNDS;
    format!(
        "\
compare_formula every
compare_formula random SEED COUNT
compare_formula time

Converts formulas by the library and by the reference, oracle/src/formula.rs. Compares the number, the length and every byte of
the output, of which {lent} bytes are lent, filled with a pattern beforehand. One formula of {one_of} is converted with {short}
and {least} bytes too. Stops at the first difference and shows it. Prints how many formulas there were, and how many had each
answer; 0 is no refusal. The status is 0 if there is no difference, 1 if there is one, 2 for other words.

every   every string of up to 3 bytes, of up to 5 digits, of up to 6 and of up to 8 symbols of small alphabets, every byte before,
        behind and in place of each byte of a few formulas, and every chain of up to 5 operands with one pair of brackets or none
random  COUNT formulas: valid ones of up to 80 operands, the same with a change or two, noise, and long ones; the same words give
        the same formulas
time    families of formulas, compared first: for each the CPU time that a byte takes, in nanoseconds, least of {rounds} rounds
"
    )
}

/// Whether no formula differs; nothing for other words.
fn run(words: &[&str]) -> Option<bool> {
    let mut totals = Totals::new();
    let agree = match words {
        ["every"] => totals.compare(strings::every()),
        ["random", seed, count] => {
            let (seed, count) = (seed.parse().ok()?, count.parse().ok()?);
            totals.compare((0..count).map(|number| formula(seed, number)))
        },
        ["time"] => time(&mut totals),
        _ => return None,
    };
    println!("{}: {}", words.join(" "), totals.text());
    Some(agree)
}

fn time(totals: &mut Totals) -> bool {
    let mut families = times::families();
    let agree = totals.compare(families.iter().flat_map(|family| family.formulas.clone()));
    if agree {
        times::time(&mut families);
    }
    agree
}

fn main() -> ExitCode {
    let words: Vec<String> = std::env::args().skip(1).collect();
    let words: Vec<&str> = words.iter().map(String::as_str).collect();
    match run(&words) {
        Some(true) => ExitCode::SUCCESS,
        Some(false) => ExitCode::FAILURE,
        None => {
            eprint!("{}", help());
            ExitCode::from(2)
        },
    }
}
