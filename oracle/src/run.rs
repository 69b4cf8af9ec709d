//! A checked sheet through the Rust: both walks, and what they leave.
use polars_plan::graph::{Slot, slots_by_edge};
use polars_plan::plans::simplify_ordering::simplify_and_fetch_orderings;
use polars_plan::plans::{AExpr, IR};
use polars_plan::watch::{self, ListLook, Tally};
use polars_utils::arena::{Arena, Node};

use crate::panics::{self, Caught};
use crate::refusals::{JOIN, PARTITIONED_SINK};
use crate::sheet::{Sheet, write_line};
use crate::{expr_lines, step_lines};

/// Why there is no finished sheet.
#[derive(Debug, PartialEq, Eq)]
pub enum Stop {
    Refused(u8),
    /// A panic that no refusal stands for.
    Panicked(String),
}

impl From<u8> for Stop {
    fn from(number: u8) -> Self {
        Stop::Refused(number)
    }
}

pub struct Plan {
    pub exprs: Arena<AExpr>,
    pub steps: Arena<IR>,
    pub roots: Vec<Node>,
}

pub struct Edge {
    pub slot: Slot,
    pub ordered: bool,
}

pub struct Finished {
    pub exprs: Arena<AExpr>,
    pub steps: Arena<IR>,
    pub edges: Vec<Edge>,
    pub tally: Tally,
}

/// The assertions on the keys of a Join and of a partitioned Sink, as a panic tells them.
const JOIN_ASSERTIONS: [&str; 2] = [
    "assertion failed: !(left_keys_observable | right_keys_observable).contains(O::INDEPENDENT)",
    "assertion failed: !eos.internally_observed_orders().contains(O::COLUMN)",
];
const SINK_ASSERTIONS: [&str; 2] = [
    "assertion failed: !observable.contains(O::INDEPENDENT)",
    "assertion failed: !eos.internally_observed_orders().contains(O::COLUMN)",
];

pub fn plan(sheet: &Sheet) -> Plan {
    let mut exprs = Arena::default();
    for (index, line) in sheet.exprs.iter().enumerate() {
        exprs.add_with_facts(expr_lines::record(line, index), expr_lines::facts(line));
    }

    let mut steps = Arena::default();
    let mut roots = vec![];
    for (index, line) in sheet.steps.iter().enumerate() {
        let step = step_lines::step(line, index);
        let root = matches!(step, IR::Sink { .. });
        let node = steps.add(step);
        if root {
            roots.push(node);
        }
    }

    Plan { exprs, steps, roots }
}

pub fn run(sheet: &Sheet) -> Result<Finished, Stop> {
    watch::reset(false);
    walk(sheet)
}

/// As `run`, with each list that was looked at, up to the end or the stop.
pub fn run_with_lists(sheet: &Sheet) -> (Result<Finished, Stop>, Vec<ListLook>) {
    watch::reset(true);
    let result = walk(sheet);
    (result, watch::take_lists())
}

fn walk(sheet: &Sheet) -> Result<Finished, Stop> {
    let Plan { mut exprs, mut steps, roots } = plan(sheet);

    let (edge_keys, edges) = panics::catch(|| simplify_and_fetch_orderings(&roots, &mut steps, &mut exprs))
        .map_err(|caught| stop(caught, &steps))?;

    let slots = slots_by_edge(&edge_keys, &steps).into_iter();
    let edges = slots.zip(edges.values()).map(|(slot, edge)| Edge { slot, ordered: !edge.is_unordered() });

    Ok(Finished { edges: edges.collect(), exprs, steps, tally: watch::tally() })
}

/// The refusal that a panic in the latest visit stands for, if it stands for one.
fn stop(caught: Caught, steps: &Arena<IR>) -> Stop {
    match watch::tally().step.map(|step| steps.get(step)) {
        Some(IR::Join { .. }) if JOIN_ASSERTIONS.contains(&caught.message) => Stop::Refused(JOIN),
        Some(IR::Sink { .. }) if SINK_ASSERTIONS.contains(&caught.message) => Stop::Refused(PARTITIONED_SINK),
        _ => Stop::Panicked(caught.report),
    }
}

impl Finished {
    pub fn text(&self) -> Vec<u8> {
        let mut text = vec![];

        write_exprs(&mut text, &self.exprs);
        self.write_steps(&mut text);
        for edge in &self.edges {
            write_edge(&mut text, edge);
        }
        write_line(&mut text, b'T', [self.tally.removed, self.tally.visits, self.tally.looks]);

        text
    }

    /// The right paper: all P lines, then a G line for each edge whose consumer was not removed.
    pub fn paper(&self) -> Vec<u8> {
        let mut paper = vec![];

        self.write_steps(&mut paper);
        for edge in self.edges.iter().filter(|edge| !self.is_removed(edge.slot.0.0)) {
            write_edge(&mut paper, edge);
        }

        paper
    }

    /// Did `unlink_node` take this step out of the plan?
    pub fn is_removed(&self, step: usize) -> bool {
        self.tally.removed_steps >> step & 1 == 1
    }

    fn write_steps(&self, text: &mut Vec<u8>) {
        for (step, _) in self.steps.items() {
            step_lines::line(step).write(text);
        }
    }
}

pub fn write_exprs(text: &mut Vec<u8>, exprs: &Arena<AExpr>) {
    for (record, facts) in exprs.items() {
        expr_lines::line(record, facts).write(text);
    }
}

pub fn write_edge(text: &mut Vec<u8>, edge: &Edge) {
    let (consumer, slot) = edge.slot;
    write_line(text, b'G', [consumer.0 as u64, slot as u64, edge.ordered.into()]);
}
