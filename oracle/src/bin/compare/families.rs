//! The sheets of a family, all compared, some of them timed.
use std::time::{Duration, Instant};

use oracle::cpu_time::{NO_ROUND, least};
use oracle::generate::{Family, sheet};

use crate::asked::{Asked, expected, pattern};
use crate::turns::{Outputs, TURN, each};

/// One of so many turns is timed, so that comparing many sheets does not take much longer for it.
pub const TIMED: u64 = 8;
pub const ROUNDS: usize = 5;
const PROGRESS: Duration = Duration::from_secs(10);

#[derive(Default)]
struct Totals {
    compared: u64,
    finished: u64,
    different: u64,
    timed: u64,
    rust: Duration,
    port: Duration,
}

impl Totals {
    /// Compares the sheet that comes next, and counts it.
    fn count(&mut self, sheet: &[u8], pattern: &[u8], out: &mut [u8]) {
        let number = self.compared;
        let expected = &expected(sheet);
        let asked = Asked { name: &number, number, sheet, expected, pattern };

        self.different += u64::from(!asked.all_agree(out, self.different == 0));
        self.compared += 1;
        self.finished += u64::from(expected.is_ok());
    }

    fn time(&mut self, sheets: &[Vec<u8>], outputs: &mut Outputs) {
        let sheets: Vec<&[u8]> = sheets.iter().map(Vec::as_slice).collect();
        let [rust, port] = (0..ROUNDS).fold(NO_ROUND, |best, _| least(best, outputs.round(&sheets)));
        self.timed += sheets.len() as u64;
        self.rust += rust;
        self.port += port;
    }

    fn text(&self, name: &str, seed: u64) -> String {
        let (rust, port) = (each(self.rust, self.timed), each(self.port, self.timed));
        format!(
            "{name} {seed}: {} sheets compared with three papers each, {} finished, {} differences; Rust {rust:.0} ns a sheet, \
             port {port:.0}, ratio {:.2} (CPU time of {} sheets, least of {ROUNDS} rounds)",
            self.compared,
            self.finished,
            self.different,
            port / rust,
            self.timed
        )
    }
}

/// How many differ.
pub fn compare(name: &str, family: Family, seed: u64, count: u64) -> u64 {
    let pattern = pattern();
    let mut out = pattern.clone();
    let mut outputs = Outputs::new();
    let mut totals = Totals::default();
    let mut told = Instant::now();

    for turn in 0..count.div_ceil(TURN as u64) {
        let first = totals.compared;
        let numbers = first..count.min(first + TURN as u64);
        let sheets: Vec<_> = numbers.map(|number| sheet(family, seed, number)).collect();

        for sheet in &sheets {
            totals.count(sheet, &pattern, &mut out);
        }
        if turn % TIMED == 0 {
            totals.time(&sheets, &mut outputs);
        }

        if told.elapsed() > PROGRESS {
            told = Instant::now();
            eprintln!("{}", totals.text(name, seed));
        }
    }

    println!("{}", totals.text(name, seed));
    totals.different
}
