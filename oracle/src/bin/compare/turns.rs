//! The CPU time of finishing, from bytes to bytes: by the Rust and by the port in turn.
use std::time::Duration;

use oracle::cpu_time::{self, Round};
use simplify_ordering::finish_into;

use crate::asked::LENT;

/// So many sheets are finished by one side, then by the other.
pub const TURN: usize = 64;

/// An output for each sheet of a turn.
pub struct Outputs(Vec<Vec<u8>>);

impl Outputs {
    pub fn new() -> Self {
        Outputs(vec![vec![0; LENT]; TURN])
    }

    /// A round: these sheets, `TURN` at most, finished by the Rust, then by the port.
    pub fn round(&mut self, sheets: &[&[u8]]) -> Round {
        let by_rust = || sheets.iter().map(|sheet| oracle::try_finish(sheet, LENT)).collect::<Vec<_>>();
        let outs = &mut self.0;
        let by_port = || sheets.iter().zip(outs).map(|(sheet, out)| finish_into(sheet, out)).collect::<Vec<_>>();
        [cpu_time::of(by_rust), cpu_time::of(by_port)]
    }
}

/// Nanoseconds for each of so many.
pub fn each(time: Duration, count: u64) -> f64 {
    time.as_nanos() as f64 / count.max(1) as f64
}
