//! The numbers by which a formula is refused.
use std::error::Error;
use std::fmt;

/// Why a formula has no E lines. The first fault decides, in the order in which they stand here.
/// More numbers may come, and they need not be the next ones.
#[derive(Clone, Copy, Debug, PartialEq, Eq, Hash)]
#[repr(u8)]
#[non_exhaustive]
pub enum FormulaRefusal {
    /// The output lent is shorter than [`LEAST_OUTPUT`](crate::LEAST_OUTPUT).
    Output = 1,
    /// The formula is longer than [`LONGEST_FORMULA`](crate::LONGEST_FORMULA).
    Length = 2,
    /// Not a formula: `docs/GUIDE.md` says what one is. A line end is no part of one.
    NoFormula = 14,
    /// A formula of 65 or more operands, whose E lines are more than 128.
    ManyLines = 15,
}

impl FormulaRefusal {
    /// Every refusal, in the order in which they are looked for.
    pub const ALL: &'static [FormulaRefusal] =
        &[FormulaRefusal::Output, FormulaRefusal::Length, FormulaRefusal::NoFormula, FormulaRefusal::ManyLines];

    /// The number that the program prints behind `R,`.
    pub fn number(self) -> u8 {
        self as u8
    }

    /// The refusal that has the number.
    pub fn of_number(number: u8) -> Option<FormulaRefusal> {
        FormulaRefusal::ALL.iter().copied().find(|refusal| refusal.number() == number)
    }

    fn words(self) -> &'static str {
        match self {
            FormulaRefusal::Output => "the output lent is too short",
            FormulaRefusal::Length => "the formula is too long",
            FormulaRefusal::NoFormula => "it is not a formula",
            FormulaRefusal::ManyLines => "there are too many operands",
        }
    }
}

impl fmt::Display for FormulaRefusal {
    fn fmt(&self, f: &mut fmt::Formatter) -> fmt::Result {
        write!(f, "refused by {}: {}", self.number(), self.words())
    }
}

impl Error for FormulaRefusal {}
