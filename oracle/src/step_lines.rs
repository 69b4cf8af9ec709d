//! P lines as steps of a plan, and back. As with E lines, the index chooses among the forms of one kind.
use std::sync::Arc;

use polars_core::frame::UniqueKeepStrategy;
use polars_ops::prelude::{AsOfOptions, JoinType, MaintainOrderJoin};
use polars_plan::dsl::{FileSinkOptions, GroupbyOptions, PartitionedSinkOptionsIR, SinkTypeIR, UnionOptions};
use polars_plan::plans::{
    DistinctOptionsIR, ExprIR, FunctionIR, HintIR, IR, JoinArgs, JoinOptionsIR, Schema, SortOptions, Unread,
};
use polars_utils::arena::Node;
use polars_utils::unique_id::UniqueId;

use crate::kinds::step as kind;
use crate::sheet::StepLine;

const KEEP: [UniqueKeepStrategy; 4] =
    [UniqueKeepStrategy::First, UniqueKeepStrategy::Last, UniqueKeepStrategy::Any, UniqueKeepStrategy::None];

const MAINTAIN_JOIN: [MaintainOrderJoin; 5] = [
    MaintainOrderJoin::None,
    MaintainOrderJoin::Left,
    MaintainOrderJoin::Right,
    MaintainOrderJoin::LeftRight,
    MaintainOrderJoin::RightLeft,
];

const FUNCTIONS: [FunctionIR; 8] = [
    FunctionIR::RowIndex,
    FunctionIR::FastCount,
    FunctionIR::Unnest,
    FunctionIR::Rechunk,
    FunctionIR::Explode,
    FunctionIR::Unpivot,
    FunctionIR::Opaque,
    FunctionIR::Hint(HintIR),
];

const GROUP_BY_APPLY: u8 = 1;
const GROUP_BY_DYNAMIC: u8 = 2;
const GROUP_BY_ROLLING: u8 = 4;

pub fn step(line: &StepLine, index: usize) -> IR {
    let inputs: Vec<Node> = line.inputs.iter().map(|&input| Node(usize::from(input))).collect();
    let (a, b) = (line.a == 1, line.b == 1);
    let slice = || b.then_some((0, 1));
    let exprs = || entries(&line.exprs);
    let more_exprs = || entries(&line.more_exprs);

    match line.kind {
        kind::SCAN => [IR::Scan, IR::DataFrameScan][index % 2].clone(),
        kind::UNOPTIMIZED_DISPATCH => IR::UnoptimizedDispatch { inputs },
        kind::SINK => IR::Sink {
            input: inputs[0],
            payload: if b {
                SinkTypeIR::Partitioned(PartitionedSinkOptionsIR { maintain_order: a, keys: exprs() })
            } else {
                SinkTypeIR::File(FileSinkOptions { maintain_order: a })
            },
        },
        kind::SELECT => IR::Select { input: inputs[0], expr: exprs() },
        kind::HSTACK => {
            IR::HStack { input: inputs[0], exprs: exprs(), schema: Schema { columns: usize::from(line.a) } }
        },
        kind::SORT => IR::Sort {
            input: inputs[0],
            by_column: exprs(),
            slice: slice(),
            sort_options: SortOptions { maintain_order: a },
        },
        kind::FILTER => IR::Filter { input: inputs[0], predicate: exprs().remove(0) },
        kind::GROUP_BY => IR::GroupBy {
            input: inputs[0],
            keys: exprs(),
            aggs: more_exprs(),
            schema: Unread,
            maintain_order: a,
            options: Arc::new(GroupbyOptions {
                dynamic: line.b & GROUP_BY_DYNAMIC != 0,
                rolling: line.b & GROUP_BY_ROLLING != 0,
            }),
            apply: (line.b & GROUP_BY_APPLY != 0).then_some(Unread),
        },
        kind::DISTINCT => IR::Distinct {
            input: inputs[0],
            options: DistinctOptionsIR { maintain_order: a, keep_strategy: KEEP[usize::from(line.c)], slice: slice() },
        },
        kind::JOIN => IR::Join {
            input_left: inputs[0],
            input_right: inputs[1],
            schema: Unread,
            left_on: exprs(),
            right_on: more_exprs(),
            options: Arc::new(JoinOptionsIR {
                args: JoinArgs { how: join_type(line.a, index), maintain_order: MAINTAIN_JOIN[usize::from(line.b)] },
            }),
        },
        kind::GATHER => IR::Gather { input: inputs[0], idxs: inputs[1] },
        kind::UNION => IR::Union { inputs, options: UnionOptions { slice: slice(), maintain_order: a } },
        kind::MERGE_SORTED => IR::MergeSorted { input_left: inputs[0], input_right: inputs[1], maintain_order: a },
        kind::MAP_FUNCTION => IR::MapFunction { input: inputs[0], function: FUNCTIONS[usize::from(line.a)] },
        kind::HCONCAT => IR::HConcat { inputs },
        kind::SLICE => IR::Slice { input: inputs[0] },
        kind::EXT_CONTEXT => IR::ExtContext { input: inputs[0], contexts: inputs[1..].to_vec() },
        kind::SIMPLE_PROJECTION => IR::SimpleProjection { input: inputs[0] },
        kind::CACHE => IR::Cache { input: inputs[0], id: UniqueId(line.a) },
        other => unreachable!("a P line of kind {other}"),
    }
}

fn entries(list: &[u8]) -> Vec<ExprIR> {
    list.iter().map(|&expr| ExprIR::from_node(Node(usize::from(expr)))).collect()
}

fn join_type(a: u8, index: usize) -> JoinType {
    match (a, index % 5) {
        (1, _) => JoinType::Semi,
        (2, _) => JoinType::Anti,
        (3, _) => JoinType::AsOf(AsOfOptions),
        (_, 0) => JoinType::Inner,
        (_, 1) => JoinType::Left,
        (_, 2) => JoinType::Right,
        (_, 3) => JoinType::Full,
        _ => JoinType::Cross,
    }
}

pub fn line(step: &IR) -> StepLine {
    let (kind, [a, b, c]) = kind_and_options(step);
    let (exprs, more_exprs) = lists(step);

    StepLine {
        kind,
        a,
        b,
        c,
        inputs: step.inputs().iter().map(|node| node.0 as u8).collect(),
        exprs: exprs.iter().map(|entry| entry.node().0 as u8).collect(),
        more_exprs: more_exprs.iter().map(|entry| entry.node().0 as u8).collect(),
    }
}

fn kind_and_options(step: &IR) -> (u8, [u8; 3]) {
    match step {
        IR::Scan | IR::DataFrameScan => (kind::SCAN, [0, 0, 0]),
        IR::UnoptimizedDispatch { .. } => (kind::UNOPTIMIZED_DISPATCH, [0, 0, 0]),
        IR::Sink { payload, .. } => {
            let partitioned = matches!(payload, SinkTypeIR::Partitioned(_));
            (kind::SINK, [payload.maintain_order().into(), partitioned.into(), 0])
        },
        IR::Select { .. } => (kind::SELECT, [0, 0, 0]),
        IR::HStack { schema, .. } => (kind::HSTACK, [schema.len() as u8, 0, 0]),
        IR::Sort { slice, sort_options, .. } => {
            (kind::SORT, [sort_options.maintain_order.into(), slice.is_some().into(), 0])
        },
        IR::Filter { .. } => (kind::FILTER, [0, 0, 0]),
        IR::GroupBy { maintain_order, options, apply, .. } => {
            let apply = if apply.is_some() { GROUP_BY_APPLY } else { 0 };
            let dynamic = if options.is_dynamic() { GROUP_BY_DYNAMIC } else { 0 };
            let rolling = if options.is_rolling() { GROUP_BY_ROLLING } else { 0 };
            (kind::GROUP_BY, [(*maintain_order).into(), apply + dynamic + rolling, 0])
        },
        IR::Distinct { options, .. } => {
            let keep = place(&KEEP, options.keep_strategy);
            (kind::DISTINCT, [options.maintain_order.into(), options.slice.is_some().into(), keep])
        },
        IR::Join { options, .. } => {
            let how = match options.args.how {
                JoinType::Semi => 1,
                JoinType::Anti => 2,
                JoinType::AsOf(_) => 3,
                _ => 0,
            };
            (kind::JOIN, [how, place(&MAINTAIN_JOIN, options.args.maintain_order), 0])
        },
        IR::Gather { .. } => (kind::GATHER, [0, 0, 0]),
        IR::Union { options, .. } => (kind::UNION, [options.maintain_order.into(), options.slice.is_some().into(), 0]),
        IR::MergeSorted { maintain_order, .. } => (kind::MERGE_SORTED, [(*maintain_order).into(), 0, 0]),
        IR::MapFunction { function, .. } => (kind::MAP_FUNCTION, [function_number(function), 0, 0]),
        IR::HConcat { .. } => (kind::HCONCAT, [0, 0, 0]),
        IR::Slice { .. } => (kind::SLICE, [0, 0, 0]),
        IR::ExtContext { .. } => (kind::EXT_CONTEXT, [0, 0, 0]),
        IR::SimpleProjection { .. } => (kind::SIMPLE_PROJECTION, [0, 0, 0]),
        IR::Cache { id, .. } => (kind::CACHE, [id.0, 0, 0]),
        IR::SinkMultiple { .. } | IR::Invalid => unreachable!("no line gives {step:?}"),
    }
}

fn place<T: PartialEq>(all: &[T], one: T) -> u8 {
    all.iter().position(|other| *other == one).unwrap() as u8
}

fn function_number(function: &FunctionIR) -> u8 {
    match function {
        FunctionIR::RowIndex => 0,
        FunctionIR::FastCount => 1,
        FunctionIR::Unnest => 2,
        FunctionIR::Rechunk => 3,
        FunctionIR::Explode => 4,
        FunctionIR::Unpivot => 5,
        FunctionIR::Opaque => 6,
        FunctionIR::Hint(_) => 7,
    }
}

/// The two lists of expressions.
fn lists(step: &IR) -> (&[ExprIR], &[ExprIR]) {
    match step {
        IR::Sink { payload: SinkTypeIR::Partitioned(options), .. } => (&options.keys, &[]),
        IR::Select { expr, .. } => (expr, &[]),
        IR::HStack { exprs, .. } => (exprs, &[]),
        IR::Sort { by_column, .. } => (by_column, &[]),
        IR::Filter { predicate, .. } => (std::slice::from_ref(predicate), &[]),
        IR::GroupBy { keys, aggs, .. } => (keys, aggs),
        IR::Join { left_on, right_on, .. } => (left_on, right_on),
        _ => (&[], &[]),
    }
}
