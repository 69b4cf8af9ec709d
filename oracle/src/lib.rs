//! The reference answer: a sheet is read and checked here, finished by the Rust, and printed here; a formula is converted here.
pub mod batch;
pub mod cpu_time;
pub mod expr_lines;
pub mod faults;
pub mod formula;
pub mod generate;
pub mod kinds;
mod panics;
pub mod reading;
pub mod refusals;
pub mod run;
pub mod sheet;
pub mod step_lines;
pub mod tables;
pub mod views;

use run::Stop;

/// The least output that a call takes, and the longest sheet.
pub const LEAST_OUTPUT: usize = 16_384;
pub const LONGEST_SHEET: usize = 16_384;

/// The finished sheet, or the number of the refusal. A panic other than the assertions of 10 and 11 goes on.
pub fn finish(sheet: &[u8], out_len: usize) -> Result<Vec<u8>, u8> {
    try_finish(sheet, out_len).map_err(|stop| match stop {
        Stop::Refused(number) => number,
        Stop::Panicked(message) => panic!("{message}"),
    })
}

/// As `finish`, with an unforeseen panic as an answer of its own.
pub fn try_finish(sheet: &[u8], out_len: usize) -> Result<Vec<u8>, Stop> {
    Ok(try_run(sheet, out_len)?.text())
}

/// As `try_finish`, with the run itself in place of its text.
pub fn try_run(sheet: &[u8], out_len: usize) -> Result<run::Finished, Stop> {
    run::run(&checked(sheet, out_len)?)
}

/// The sheet's lines, if no refusal that can be seen without the walks meets it.
pub fn checked(bytes: &[u8], out_len: usize) -> Result<sheet::Sheet, u8> {
    let sheet = unchecked(bytes, out_len)?;
    faults::check(&sheet)?;
    Ok(sheet)
}

/// The sheet's lines, if none of the refusals 1 to 6 meets it: 7 to 9, 12 and 13 are left out, for which the Rust has no checks.
pub fn unchecked(bytes: &[u8], out_len: usize) -> Result<sheet::Sheet, u8> {
    if out_len < LEAST_OUTPUT {
        return Err(refusals::OUTPUT);
    }
    if bytes.len() > LONGEST_SHEET {
        return Err(refusals::LENGTH);
    }
    reading::read(bytes)
}
