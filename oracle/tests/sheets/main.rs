//! The oracle's tests, and how they ask it: with sheets as text.
mod cases;
mod cpu_time;
mod findings;
mod generated;
mod limits;
mod papers;
mod programs;
mod reading;
mod walks;
mod worst;

/// The finished sheet, or `R,n`.
fn answer(sheet: &str) -> String {
    match oracle::finish(sheet.as_bytes(), oracle::LEAST_OUTPUT) {
        Ok(text) => String::from_utf8(text).unwrap(),
        Err(number) => format!("R,{number}\n"),
    }
}

/// The number of the refusal, or 0 for a finished sheet.
fn refusal(sheet: &[u8]) -> u8 {
    oracle::finish(sheet, oracle::LEAST_OUTPUT).err().unwrap_or(0)
}

/// The lines of a text that begin with the letter.
fn lines(text: &str, letter: char) -> Vec<&str> {
    text.lines().filter(|line| line.starts_with(letter)).collect()
}

/// The L lines of a sheet that is not refused before the walks, and the number of the refusal there or 0.
fn list_lines(sheet: &str) -> (Vec<String>, u8) {
    let sheet = oracle::checked(sheet.as_bytes(), oracle::LEAST_OUTPUT).unwrap();
    let (text, result) = oracle::views::lists(&sheet);
    let text = String::from_utf8(text).unwrap();
    let number = match result {
        Ok(()) => 0,
        Err(oracle::run::Stop::Refused(number)) => number,
        Err(oracle::run::Stop::Panicked(report)) => panic!("{report}"),
    };
    (lines(&text, 'L').into_iter().map(str::to_string).collect(), number)
}
