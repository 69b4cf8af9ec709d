//! How often each answer, kind and option value comes up among sheets.
use std::collections::BTreeMap;

use crate::reading;

#[derive(Default)]
pub struct Shares {
    sheets: usize,
    /// For each thing seen, in how many sheets.
    seen: BTreeMap<(&'static str, u8, u8), usize>,
}

impl Shares {
    pub fn count(&mut self, sheet: &[u8]) {
        self.sheets += 1;
        let answer = crate::finish(sheet, crate::LEAST_OUTPUT).err().unwrap_or(0);

        let mut found = vec![("R", answer, 0)];
        if let Ok(lines) = reading::read(sheet) {
            for line in &lines.exprs {
                found.push(("E option", line.kind, line.option));
            }
            for line in &lines.steps {
                found.push(("P a", line.kind, line.a));
                found.push(("P b", line.kind, line.b));
                found.push(("P c", line.kind, line.c));
            }
        }

        found.sort_unstable();
        found.dedup();
        for thing in found {
            *self.seen.entry(thing).or_default() += 1;
        }
    }

    /// The share of a refusal, 0 for finished sheets, in 100.
    pub fn of_answer(&self, answer: u8) -> f64 {
        self.percent(("R", answer, 0))
    }

    /// Has an E line of that kind and option been seen?
    pub fn has_expr(&self, kind: u8, option: u8) -> bool {
        self.seen.contains_key(&("E option", kind, option))
    }

    /// Has a P line of that kind been seen with that value of option 0, 1 or 2?
    pub fn has_step(&self, kind: u8, option: usize, value: u8) -> bool {
        self.seen.contains_key(&(["P a", "P b", "P c"][option], kind, value))
    }

    fn percent(&self, thing: (&'static str, u8, u8)) -> f64 {
        let sheets = self.seen.get(&thing).copied().unwrap_or(0);
        100.0 * sheets as f64 / self.sheets as f64
    }

    /// One line for each thing seen: the share of sheets in which it comes up.
    pub fn text(&self) -> String {
        let mut text = String::new();
        for &(what, first, second) in self.seen.keys() {
            let name = match (what, first) {
                ("R", 0) => "finished".to_string(),
                ("R", number) => format!("R,{number}"),
                ("E option", kind) => format!("E kind {kind} option {second}"),
                (option, kind) => format!("P kind {kind} {} {second}", &option[2..]),
            };
            text += &format!("{:7.3} %  {name}\n", self.percent((what, first, second)));
        }
        text
    }
}
