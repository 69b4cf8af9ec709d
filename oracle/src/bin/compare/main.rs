//! The program `compare`: the port and the Rust on the same sheets in one process, compared and timed. compare.sh builds it.
mod asked;
mod families;
mod papers;
mod turns;
mod worst;

use std::path::PathBuf;
use std::process::ExitCode;

use oracle::generate::{FAMILIES, Family};

fn help() -> String {
    let (one_of, rounds, calls) = (families::TIMED, families::ROUNDS, turns::TURN);
    let (passes, in_a_pass) = (worst::PASSES, worst::ROUNDS);
    format!(
        "\
compare FAMILY SEED COUNT
compare worst [FOLDER]

Finishes sheets by the port and by the Rust, each from bytes to bytes. Compares the answers and every byte of the output that is
lent to the port, which is longer than it has to be and filled with a pattern beforehand. Then has the port mark three papers
against each sheet: the right one, which is the Rust's P lines and then a G line for each edge of its graph whose consumer it did
not remove; that paper with one byte changed; and one altered in another way. Compares the marks and the output likewise. Shows the first difference whole. The status is 0 if there is none, 1 if
there is one, 2 for other words or a folder without plans.

With a family: the COUNT sheets of `gen FAMILY SEED COUNT`. One turn of {calls} sheets in {one_of} is finished again to be timed, in
{rounds} rounds by each side, of which the least counts. Prints how many sheets there were, how many of them are finished, how many
differ, and the CPU time that each side took to finish a sheet, over those that were timed.

With `worst`: the plans of a folder, one in each file; without FOLDER those of oracle/worst. Then all are timed in {passes} passes
of {in_a_pass} rounds for each plan: {calls} calls by each side, and the least round counts. Prints for each plan its visits and
looks, or the refusal, and the CPU time that each side took for a call; then how many differ, and the greatest ratio.
"
    )
}

enum Task {
    Family { name: &'static str, family: Family, seed: u64, count: u64 },
    Worst(PathBuf),
}

fn parse(words: &[&str]) -> Option<Task> {
    match words {
        ["worst"] => Some(Task::Worst(worst::FOLDER.into())),
        ["worst", folder] => Some(Task::Worst(folder.into())),
        [family, seed, count] => {
            let (name, family) = FAMILIES.iter().find(|(name, _)| name == family)?;
            Some(Task::Family { name, family: *family, seed: seed.parse().ok()?, count: count.parse().ok()? })
        },
        _ => None,
    }
}

fn main() -> ExitCode {
    let words: Vec<String> = std::env::args().skip(1).collect();
    let words: Vec<&str> = words.iter().map(String::as_str).collect();

    let different = match parse(&words) {
        Some(Task::Family { name, family, seed, count }) => families::compare(name, family, seed, count),
        Some(Task::Worst(folder)) => match worst::compare(&folder) {
            Ok(different) => different,
            Err(error) => {
                eprintln!("compare: {}: {error}", folder.display());
                return ExitCode::from(2);
            },
        },
        None => {
            eprint!("{}", help());
            return ExitCode::from(2);
        },
    };
    if different == 0 { ExitCode::SUCCESS } else { ExitCode::FAILURE }
}
