//! Formulas converted by the library, held to what the reference answers.
use oracle::LEAST_OUTPUT;
use oracle::formula::{convert, with_stack};

use crate::library::{self, Answer};

/// More than a call asks for, so that bytes behind the least output are seen too.
pub const LENT: usize = LEAST_OUTPUT + 512;
/// Bytes behind what is lent, which are looked at as well.
const BEHIND: usize = 64;
/// One of so many formulas is converted with the shorter outputs too.
pub const ONE_OF: u64 = 100;
pub const SHORTER: [usize; 2] = [LEAST_OUTPUT - 1, LEAST_OUTPUT];
/// The reference converts so many at a time.
const TURN: usize = 4_096;

/// A formula, the output lent, and what the reference answers.
struct Asked<'a> {
    formula: &'a [u8],
    lent: usize,
    expected: Result<Vec<u8>, u8>,
}

impl<'a> Asked<'a> {
    fn new(formula: &'a [u8], lent: usize) -> Self {
        Asked { formula, lent, expected: convert(formula, lent) }
    }

    fn number(&self) -> u8 {
        self.expected.as_ref().err().copied().unwrap_or(0)
    }

    fn text(&self) -> &[u8] {
        self.expected.as_deref().unwrap_or_default()
    }

    fn show(&self, answer: &Answer, out: &[u8], wanted: &[u8]) {
        let text = self.text();
        println!("a formula of {} bytes differs, with an output of {}", self.formula.len(), self.lent);
        println!("{}", self.formula.escape_ascii());
        println!("expected {}, {} bytes\n{}", self.number(), text.len(), text.escape_ascii());
        println!("answered {}, {} bytes", answer.number, answer.length);
        if let Some(place) = (0..out.len()).find(|&place| out[place] != wanted[place]) {
            let end = out.len().min(text.len().max(place) + 80);
            println!("the output at exit differs from byte {place} on\n{}", out[..end].escape_ascii());
        }
    }
}

/// The outputs, and what was found so far.
pub struct Totals {
    /// No line has a byte of it: all are above 127.
    pattern: Vec<u8>,
    out: Vec<u8>,
    compared: u64,
    again: u64,
    /// For each number the formulas that it answers.
    answers: [u64; 256],
}

impl Totals {
    pub fn new() -> Self {
        let pattern: Vec<u8> = (0..LENT + BEHIND).map(|place| 128 + (place % 127) as u8).collect();
        Totals { out: pattern.clone(), pattern, compared: 0, again: 0, answers: [0; 256] }
    }

    /// Do all agree? The first that does not is shown, and nothing after it is looked at.
    pub fn compare(&mut self, formulas: impl IntoIterator<Item = Vec<u8>>) -> bool {
        let mut formulas = formulas.into_iter().peekable();
        while formulas.peek().is_some() {
            let turn: Vec<Vec<u8>> = formulas.by_ref().take(TURN).collect();
            // The library is called on this thread's stack, so that it gets no more than others give it.
            let asked = with_stack(|| asked(&turn, self.compared));
            if !asked.iter().all(|asked| self.count(asked)) {
                return false;
            }
        }
        true
    }

    /// Does the library answer as expected, and has the output the lines at its front, or nothing, and the pattern behind them?
    fn count(&mut self, asked: &Asked) -> bool {
        self.out.copy_from_slice(&self.pattern);
        let answer = library::convert(asked.formula, &mut self.out[..asked.lent]);
        let text = asked.text();
        let (front, behind) = self.out.split_at(text.len());
        let agrees = answer == Answer { number: asked.number(), length: text.len() }
            && front == text
            && behind == &self.pattern[text.len()..];

        if asked.lent == LENT {
            self.compared += 1;
            self.answers[usize::from(asked.number())] += 1;
        } else {
            self.again += 1;
        }
        if !agrees {
            asked.show(&answer, &self.out, &[text, &self.pattern[text.len()..]].concat());
        }
        agrees
    }

    pub fn text(&self) -> String {
        let answers = (0..).zip(self.answers).filter(|(_, count)| *count > 0);
        let answers: Vec<String> = answers.map(|(number, count): (u8, u64)| format!("{number}: {count}")).collect();
        format!(
            "{} formulas compared, {} calls more with outputs of {SHORTER:?}; by answer {}",
            self.compared,
            self.again,
            answers.join(", ")
        )
    }
}

/// What the reference answers to formulas, of which so many came before.
fn asked(formulas: &[Vec<u8>], before: u64) -> Vec<Asked<'_>> {
    let mut all = vec![];
    for (number, formula) in (before..).zip(formulas) {
        all.push(Asked::new(formula, LENT));
        if number % ONE_OF == 0 {
            all.extend(SHORTER.map(|lent| Asked::new(formula, lent)));
        }
    }
    all
}
