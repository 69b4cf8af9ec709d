//! Which options and counts a line of each kind may have.
use std::ops::RangeInclusive;

use crate::kinds::{expr, step};
use crate::sheet::{ExprLine, StepLine};

/// A row of the table of records: the option's limit, the least and the most children.
pub struct ExprRow {
    pub option: u8,
    pub least: usize,
    pub most: usize,
}

const fn row(option: u8, least: usize, most: usize) -> ExprRow {
    ExprRow { option, least, most }
}

pub const EXPR_ROWS: [ExprRow; expr::COUNT as usize] = [
    row(0, 0, 0),  // 0 Column
    row(0, 0, 0),  // 1 Literal
    row(0, 0, 0),  // 2 Element
    row(0, 0, 0),  // 3 StructField
    row(0, 0, 0),  // 4 Len
    row(0, 2, 2),  // 5 BinaryExpr
    row(0, 3, 3),  // 6 Ternary
    row(0, 1, 1),  // 7 Cast
    row(0, 1, 1),  // 8 Explode
    row(0, 1, 1),  // 9 Sort
    row(1, 1, 8),  // 10 SortBy
    row(0, 2, 2),  // 11 Filter
    row(1, 2, 2),  // 12 Gather
    row(0, 3, 3),  // 13 Slice
    row(1, 2, 2),  // 14 Eval
    row(0, 1, 8),  // 15 StructEval
    row(1, 1, 8),  // 16 Over
    row(0, 2, 2),  // 17 Rolling
    row(0, 2, 2),  // 18 MinBy, MaxBy
    row(63, 0, 8), // 19 Function
    row(0, 0, 8),  // 20 AnonymousAgg
    row(0, 1, 1),  // 21 First and the like
    row(0, 1, 1),  // 22 Min to Var
    row(1, 1, 1),  // 23 Implode
    row(0, 1, 1),  // 24 AggGroups
];

pub fn expr_fits(line: &ExprLine) -> bool {
    let Some(row) = EXPR_ROWS.get(usize::from(line.kind)) else {
        return false;
    };
    let order_by = line.kind == expr::OVER && line.option == 1;
    let least = if order_by { 2 } else { row.least };

    line.scalar <= 1
        && line.length_preserving <= 1
        && line.option <= row.option
        && (least..=row.most).contains(&line.children.len())
}

/// The limits of a step's three options and the ranges of its three counts.
pub struct StepRow {
    pub options: [u8; 3],
    pub counts: [RangeInclusive<usize>; 3],
}

/// The row for a kind. A Sink has expressions only if it is partitioned, so its row hangs on b.
pub fn step_row(kind: u8, b: u8) -> Option<StepRow> {
    let none = || 0..=0;
    let one = || 1..=1;
    let two = || 2..=2;
    let any = || 0..=8;

    let (options, counts) = match kind {
        step::SCAN => ([0, 0, 0], [none(), none(), none()]),
        step::UNOPTIMIZED_DISPATCH => ([0, 0, 0], [any(), none(), none()]),
        step::SINK if b == 1 => ([1, 1, 0], [one(), any(), none()]),
        step::SINK => ([1, 1, 0], [one(), none(), none()]),
        step::SELECT => ([0, 0, 0], [one(), any(), none()]),
        step::HSTACK => ([255, 0, 0], [one(), any(), none()]),
        step::SORT => ([1, 1, 0], [one(), any(), none()]),
        step::FILTER => ([0, 0, 0], [one(), one(), none()]),
        step::GROUP_BY => ([1, 7, 0], [one(), any(), any()]),
        step::DISTINCT => ([1, 1, 3], [one(), none(), none()]),
        step::JOIN => ([3, 4, 0], [two(), any(), any()]),
        step::GATHER => ([0, 0, 0], [two(), none(), none()]),
        step::UNION => ([1, 1, 0], [any(), none(), none()]),
        step::MERGE_SORTED => ([1, 0, 0], [two(), none(), none()]),
        step::MAP_FUNCTION => ([7, 0, 0], [one(), none(), none()]),
        step::HCONCAT => ([0, 0, 0], [any(), none(), none()]),
        step::SLICE | step::SIMPLE_PROJECTION => ([0, 0, 0], [one(), none(), none()]),
        step::EXT_CONTEXT => ([0, 0, 0], [1..=8, none(), none()]),
        step::CACHE => ([255, 0, 0], [one(), none(), none()]),
        _ => return None,
    };

    Some(StepRow { options, counts })
}

pub fn step_fits(line: &StepLine) -> bool {
    let Some(row) = step_row(line.kind, line.b) else {
        return false;
    };
    let options = [line.a, line.b, line.c];
    let counts = [line.inputs.len(), line.exprs.len(), line.more_exprs.len()];

    options.iter().zip(row.options).all(|(option, limit)| *option <= limit)
        && counts.iter().zip(row.counts).all(|(count, range)| range.contains(count))
}
