//! What goes on inside a run: the graph before the walks, and each list of expressions that is looked at.
use polars_plan::graph::visiting_list_and_edges;
use polars_plan::watch::ListLook;

use crate::run::{Edge, Plan, Stop, plan, run_with_lists, write_edge, write_exprs};
use crate::sheet::{Sheet, write_line};

/// `V` and the visiting list, then a G line for each edge, all still ordered.
pub fn graph(sheet: &Sheet) -> Vec<u8> {
    let Plan { mut steps, roots, .. } = plan(sheet);
    let (list, slots) = visiting_list_and_edges(&roots, &mut steps);

    let mut text = vec![];
    write_line(&mut text, b'V', list.iter().map(|node| node.0 as u64));
    for slot in slots {
        write_edge(&mut text, &Edge { slot, ordered: true });
    }
    text
}

/// For each list an `L` line and the E lines as they stand after it; and how the run ended, if not well.
pub fn lists(sheet: &Sheet) -> (Vec<u8>, Result<(), Stop>) {
    let (result, lists) = run_with_lists(sheet);

    let mut text = vec![];
    for list in &lists {
        write_list(&mut text, list);
    }
    (text, result.map(|_| ()))
}

/// `L,visit,step,allow,answer,observed,looks,entries`
fn write_list(text: &mut Vec<u8>, list: &ListLook) {
    let facts = [
        list.visit,
        list.step.0 as u64,
        list.allow_deordering_top.into(),
        list.answer.into(),
        list.internally_observed.into(),
        list.looks,
    ];
    write_line(text, b'L', facts.into_iter().chain(list.entries.iter().map(|node| node.0 as u64)));
    write_exprs(text, &list.records_after);
}
