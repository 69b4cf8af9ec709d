//! The numbers by which a sheet is refused.
use std::error::Error;
use std::fmt;

/// Why a sheet has no finished sheet. The first fault decides. They are looked for in the order in which they stand here; 3, 4 and 5
/// line by line, and so are 8 and 12, in E lines before P lines.
/// More numbers may come, and they need not be the next ones.
#[derive(Clone, Copy, Debug, PartialEq, Eq, Hash)]
#[repr(u8)]
#[non_exhaustive]
pub enum Refusal {
    /// The output lent is shorter than [`LEAST_OUTPUT`](crate::LEAST_OUTPUT).
    Output = 1,
    /// The sheet is longer than [`LONGEST_SHEET`](crate::LONGEST_SHEET).
    Length = 2,
    /// Not the form of a line, or an E line after a P line.
    Form = 3,
    /// A kind, an option or a count outside its table.
    Table = 4,
    /// More P lines or more expressions than there is room for.
    Room = 5,
    /// No P line.
    NoStep = 6,
    /// A child, an input or an expression that may not be named there.
    Reference = 7,
    /// An E line, or a P line that is no Sink, that nothing names.
    Unused = 8,
    /// An E line, or a P line neither Sink nor Cache, named more than once.
    Reused = 12,
    /// Two Cache lines with one id.
    CacheId = 13,
    /// A StructField outside the evaluation of every StructEval.
    StructField = 9,
    /// The assertions on a Join's keys fail.
    Join = 10,
    /// The assertions on a partitioned Sink's keys fail.
    PartitionedSink = 11,
}

impl Refusal {
    /// Every refusal, in the order in which they are looked for.
    pub const ALL: &'static [Refusal] = &[
        Refusal::Output,
        Refusal::Length,
        Refusal::Form,
        Refusal::Table,
        Refusal::Room,
        Refusal::NoStep,
        Refusal::Reference,
        Refusal::Unused,
        Refusal::Reused,
        Refusal::CacheId,
        Refusal::StructField,
        Refusal::Join,
        Refusal::PartitionedSink,
    ];

    /// The number that the programs print behind `R,`.
    pub fn number(self) -> u8 {
        self as u8
    }

    /// The refusal that has the number.
    pub fn of_number(number: u8) -> Option<Refusal> {
        Refusal::ALL.iter().copied().find(|refusal| refusal.number() == number)
    }

    fn words(self) -> &'static str {
        match self {
            Refusal::Output => "the output lent is too short",
            Refusal::Length => "the sheet is too long",
            Refusal::Form => "a line has not the form of a line",
            Refusal::Table => "a kind, an option or a count is not in the tables",
            Refusal::Room => "there are too many lines",
            Refusal::NoStep => "there is no P line",
            Refusal::Reference => "a line names what it may not name",
            Refusal::Unused => "a line is named by none",
            Refusal::Reused => "a line is named more than once",
            Refusal::CacheId => "two Cache lines have one id",
            Refusal::StructField => "a StructField is outside of every StructEval",
            Refusal::Join => "a Join's keys are not row by row",
            Refusal::PartitionedSink => "the keys of a partitioned Sink are not row by row",
        }
    }
}

impl fmt::Display for Refusal {
    fn fmt(&self, f: &mut fmt::Formatter) -> fmt::Result {
        write!(f, "refused by {}: {}", self.number(), self.words())
    }
}

impl Error for Refusal {}
