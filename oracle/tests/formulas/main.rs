//! The reference of formulas: what it answers, the program over it, and the formulas made at random.
mod accepted;
mod generated;
mod programs;
mod refused;

use oracle::LEAST_OUTPUT;
use oracle::formula::{convert, with_stack};

const COLUMN: &str = "E,0,0,1,0\n";
const LITERAL: &str = "E,1,1,0,0\n";
/// From the loosest level to the tightest.
const LEVELS: [&str; 5] = ["|", "&", "<>=", "+-", "*/"];

fn answer(formula: impl AsRef<[u8]>) -> Result<String, u8> {
    let formula = formula.as_ref();
    let text = with_stack(|| convert(formula, LEAST_OUTPUT))?;
    Ok(String::from_utf8(text).unwrap())
}

/// So many columns, joined.
fn chain(operands: usize, between: &str) -> String {
    vec!["a"; operands].join(between)
}

fn operators() -> impl Iterator<Item = (usize, char)> {
    LEVELS.iter().enumerate().flat_map(|(level, operators)| operators.chars().map(move |operator| (level, operator)))
}
