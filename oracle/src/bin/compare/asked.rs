//! One sheet finished by the port, and three papers marked against it, held to what the Rust answers.
use std::fmt::{Debug, Display};

use oracle::run::Stop;
use simplify_ordering::{Refusal, finish_into, mark_into};

use crate::papers::Papers;

/// More than a call asks for, so that bytes behind the least output are seen too.
pub const LENT: usize = oracle::LEAST_OUTPUT + 512;

/// No finished sheet has a byte of it: all are above 127.
pub fn pattern() -> Vec<u8> {
    (0..LENT).map(|place| 128 + (place % 127) as u8).collect()
}

/// What the Rust makes of a sheet.
pub struct Finished {
    pub text: Vec<u8>,
    /// The right paper, by the Rust's own graph.
    pub paper: Vec<u8>,
    /// The steps that it removed, a bit for each.
    pub removed: u32,
}

pub type Expected = Result<Finished, Stop>;

pub fn expected(sheet: &[u8]) -> Expected {
    let run = oracle::try_run(sheet, LENT)?;
    Ok(Finished { text: run.text(), paper: run.paper(), removed: run.tally.removed_steps })
}

/// A sheet, and what the Rust answers.
pub struct Asked<'a> {
    pub name: &'a dyn Display,
    /// Chooses what is altered in the papers.
    pub number: u64,
    pub sheet: &'a [u8],
    pub expected: &'a Expected,
    pub pattern: &'a [u8],
}

impl Asked<'_> {
    /// Are the answer, the marks and the output of each call as they have to be? If not, the first is shown where asked for.
    pub fn all_agree(&self, out: &mut [u8], show: bool) -> bool {
        let papers = Papers::new(self.sheet, self.expected);
        self.finishes(out, show) && papers.three(self.number).iter().all(|paper| self.marks(&papers, paper, out, show))
    }

    fn finishes(&self, out: &mut [u8], show: bool) -> bool {
        out.copy_from_slice(self.pattern);
        let answer = finish_into(self.sheet, out);
        let length = self.expected.as_ref().map_or(0, |finished| finished.text.len());
        self.agrees(answer, length, out, show)
    }

    fn marks(&self, papers: &Papers, paper: &[u8], out: &mut [u8], show: bool) -> bool {
        out.copy_from_slice(self.pattern);
        let mark = mark_into(self.sheet, paper, out);
        let agrees = self.agrees(mark, papers.verdict(paper), out, show);
        if show && !agrees {
            println!("to the paper\n{}", paper.escape_ascii());
        }
        agrees
    }

    /// Is the answer the wanted one, or the Rust's refusal, and the output as it has to be? If not, that is shown where asked for.
    fn agrees<T: PartialEq + Debug>(&self, answer: Result<T, Refusal>, wanted: T, out: &[u8], show: bool) -> bool {
        let agrees = match (self.expected, &answer) {
            (Ok(finished), Ok(answer)) => *answer == wanted && self.output_is(out, &finished.text),
            (Err(Stop::Refused(number)), Err(refusal)) => refusal.number() == *number && self.output_is(out, &[]),
            _ => false,
        };
        if show && !agrees {
            self.show(&answer, out);
        }
        agrees
    }

    /// Has the output the finished sheet at its front, or nothing, and the pattern behind it?
    fn output_is(&self, out: &[u8], finished: &[u8]) -> bool {
        out.starts_with(finished) && out[finished.len()..] == self.pattern[finished.len()..]
    }

    fn show(&self, answer: &impl Debug, out: &[u8]) {
        println!("sheet {} differs\n{}", self.name, self.sheet.escape_ascii());
        match self.expected {
            Ok(Finished { text, .. }) => println!("expected, {} bytes\n{}", text.len(), text.escape_ascii()),
            Err(Stop::Refused(number)) => println!("expected R,{number}"),
            Err(Stop::Panicked(report)) => println!("the Rust panicked: {report}"),
        }
        println!("answered {answer:?}; the output at exit\n{}", out.escape_ascii());
    }
}
