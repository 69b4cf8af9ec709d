//! What the counters in the ported code report: visits, looks, removals, and each list looked at.
use std::cell::{Cell, RefCell};

use polars_utils::arena::{Arena, Node};

use crate::plans::AExpr;

/// What one run did so far.
#[derive(Clone, Copy, Debug, Default)]
pub struct Tally {
    /// Calls of `simplify_ir_node_orders`.
    pub visits: u64,
    /// Calls of `rec`.
    pub looks: u64,
    /// Calls of `unlink_node`.
    pub removed: u64,
    /// The steps that they were called for, a bit for each: a sheet has 32 at most.
    pub removed_steps: u32,
    /// The step of the latest visit.
    pub step: Option<Node>,
}

/// One call of `simplify_projected_exprs`.
pub struct ListLook {
    /// The number of the visit, from 1.
    pub visit: u64,
    pub step: Node,
    pub entries: Vec<Node>,
    pub allow_deordering_top: bool,
    pub answer: u8,
    /// All that the visit's looks have observed internally so far.
    pub internally_observed: u8,
    pub looks: u64,
    pub records_after: Arena<AExpr>,
}

thread_local! {
    static VISITS: Cell<u64> = const { Cell::new(0) };
    static LOOKS: Cell<u64> = const { Cell::new(0) };
    static REMOVED: Cell<u64> = const { Cell::new(0) };
    static REMOVED_STEPS: Cell<u32> = const { Cell::new(0) };
    static STEP: Cell<Option<Node>> = const { Cell::new(None) };
    /// There if lists are to be kept.
    static LISTS: RefCell<Option<Vec<ListLook>>> = const { RefCell::new(None) };
}

/// Begins a run.
pub fn reset(keep_lists: bool) {
    VISITS.set(0);
    LOOKS.set(0);
    REMOVED.set(0);
    REMOVED_STEPS.set(0);
    STEP.set(None);
    LISTS.set(keep_lists.then(Vec::new));
}

pub fn tally() -> Tally {
    Tally {
        visits: VISITS.get(),
        looks: LOOKS.get(),
        removed: REMOVED.get(),
        removed_steps: REMOVED_STEPS.get(),
        step: STEP.get(),
    }
}

/// The lists kept since the run began.
pub fn take_lists() -> Vec<ListLook> {
    LISTS.take().unwrap_or_default()
}

pub(crate) fn visit(step: Node) {
    VISITS.set(VISITS.get() + 1);
    STEP.set(Some(step));
}

pub(crate) fn look() {
    LOOKS.set(LOOKS.get() + 1);
}

pub(crate) fn removal(step: Node) {
    REMOVED.set(REMOVED.get() + 1);
    REMOVED_STEPS.set(REMOVED_STEPS.get() | 1 << step.0);
}

pub(crate) fn looks() -> u64 {
    LOOKS.get()
}

pub(crate) fn list(report: impl FnOnce(Node, u64) -> ListLook) {
    LISTS.with_borrow_mut(|lists| {
        if let Some(lists) = lists {
            lists.push(report(STEP.get().unwrap(), VISITS.get()));
        }
    });
}
