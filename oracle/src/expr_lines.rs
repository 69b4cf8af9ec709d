//! E lines as expression records, and back.
//!
//! Where one kind stands for several forms of the Rust, the line's index chooses among them, so that a run over many
//! sheets goes through all. Back on the sheet they are one kind again.
use polars_plan::dsl::EvalVariant;
use polars_plan::plans::{
    AExpr, ExprIR, Facts, FunctionFlags, FunctionOptions, IRAggExpr, IRFunctionExpr, LiteralValue, SortOptions, Unread,
};
use polars_utils::arena::Node;

use crate::kinds::expr as kind;
use crate::sheet::ExprLine;

/// The bits of a Function's option, from the lowest.
const FLAGS: [FunctionFlags; 6] = [
    FunctionFlags::ROW_SEPARABLE,
    FunctionFlags::LENGTH_PRESERVING,
    FunctionFlags::NON_ORDER_OBSERVING,
    FunctionFlags::TERMINATES_INPUT_ORDER,
    FunctionFlags::RETURNS_SCALAR,
    FunctionFlags::NON_ORDER_PRODUCING,
];

pub fn facts(line: &ExprLine) -> Facts {
    Facts { scalar: line.scalar == 1, length_preserving: line.length_preserving == 1 }
}

pub fn record(line: &ExprLine, index: usize) -> AExpr {
    let child = |place: usize| Node(usize::from(line.children[place]));
    let nodes = |from: usize| line.children[from..].iter().map(|&child| Node(usize::from(child)));
    let on = line.option == 1;
    let sort_options = |maintain_order| SortOptions { maintain_order };

    match line.kind {
        kind::COLUMN => AExpr::Column(Unread),
        kind::LITERAL => AExpr::Literal(LiteralValue { scalar: line.scalar == 1 }),
        kind::ELEMENT => AExpr::Element,
        kind::STRUCT_FIELD => AExpr::StructField(Unread),
        kind::LEN => AExpr::Len,
        kind::BINARY_EXPR => AExpr::BinaryExpr { left: child(0), op: Unread, right: child(1) },
        kind::TERNARY => AExpr::Ternary { predicate: child(0), truthy: child(1), falsy: child(2) },
        kind::CAST => AExpr::Cast { expr: child(0), options: Unread },
        kind::EXPLODE => AExpr::Explode { expr: child(0), options: Unread },
        kind::SORT => AExpr::Sort { expr: child(0), options: sort_options(false) },
        kind::SORT_BY => AExpr::SortBy { expr: child(0), by: nodes(1).collect(), sort_options: sort_options(on) },
        kind::FILTER => AExpr::Filter { input: child(0), by: child(1) },
        kind::GATHER => AExpr::Gather { expr: child(0), idx: child(1), returns_scalar: on, null_on_oob: false },
        kind::SLICE => AExpr::Slice { input: child(0), offset: child(1), length: child(2) },
        kind::EVAL => AExpr::Eval { expr: child(0), evaluation: child(1), variant: eval_variant(on, index) },
        kind::STRUCT_EVAL => {
            AExpr::StructEval { expr: child(0), evaluation: nodes(1).map(ExprIR::from_node).collect() }
        },
        kind::OVER => {
            let mut partition_by: Vec<Node> = nodes(1).collect();
            let order_by = if on { partition_by.pop() } else { None };
            AExpr::Over {
                function: child(0),
                partition_by,
                order_by: order_by.map(|node| (node, sort_options(false))),
                mapping: Unread,
            }
        },
        kind::ROLLING => AExpr::Rolling {
            function: child(0),
            index_column: child(1),
            period: Unread,
            offset: Unread,
            closed_window: Unread,
        },
        kind::MIN_BY => AExpr::Function {
            input: nodes(0).map(ExprIR::from_node).collect(),
            function: [IRFunctionExpr::MinBy, IRFunctionExpr::MaxBy][index % 2],
            options: function_options(0),
        },
        kind::FUNCTION => {
            let input = nodes(0).map(ExprIR::from_node).collect();
            let options = function_options(line.option);
            match index % 2 {
                0 => AExpr::Function { input, function: IRFunctionExpr::Other, options },
                _ => AExpr::AnonymousFunction { input, options },
            }
        },
        kind::ANONYMOUS_AGG => {
            AExpr::AnonymousAgg { input: nodes(0).map(ExprIR::from_node).collect(), fmt_str: Unread, function: Unread }
        },
        kind::FIRST => AExpr::Agg(first_or_last(child(0), index)),
        kind::MIN => AExpr::Agg(order_lifting(child(0), index)),
        kind::IMPLODE => AExpr::Agg(IRAggExpr::Implode { input: child(0), maintain_order: on }),
        kind::AGG_GROUPS => AExpr::Agg(IRAggExpr::AggGroups(child(0))),
        other => unreachable!("an E line of kind {other}"),
    }
}

fn eval_variant(cumulative: bool, index: usize) -> EvalVariant {
    match (cumulative, index % 4) {
        (true, _) => EvalVariant::Cumulative { min_samples: 1 },
        (false, 0) => EvalVariant::List,
        (false, 1) => EvalVariant::ListAgg,
        (false, 2) => EvalVariant::Array { as_list: false },
        (false, _) => EvalVariant::ArrayAgg,
    }
}

fn first_or_last(input: Node, index: usize) -> IRAggExpr {
    match index % 4 {
        0 => IRAggExpr::First(input),
        1 => IRAggExpr::FirstNonNull(input),
        2 => IRAggExpr::Last(input),
        _ => IRAggExpr::LastNonNull(input),
    }
}

fn order_lifting(input: Node, index: usize) -> IRAggExpr {
    match index % 10 {
        0 => IRAggExpr::Min { input, propagate_nans: false },
        1 => IRAggExpr::Max { input, propagate_nans: false },
        2 => IRAggExpr::Mean(input),
        3 => IRAggExpr::Median(input),
        4 => IRAggExpr::Sum(input),
        5 => IRAggExpr::Item { input, allow_empty: false },
        6 => IRAggExpr::NUnique(input),
        7 => IRAggExpr::Count { input, include_nulls: false },
        8 => IRAggExpr::Std(input, 1),
        _ => IRAggExpr::Var(input, 1),
    }
}

fn function_options(option: u8) -> FunctionOptions {
    let mut flags = FunctionFlags::default();
    for (bit, flag) in FLAGS.into_iter().enumerate() {
        if option & (1 << bit) != 0 {
            flags |= flag;
        }
    }
    FunctionOptions { flags }
}

pub fn line(record: &AExpr, facts: Facts) -> ExprLine {
    let (kind, option, children) = numbers(record);
    ExprLine {
        kind,
        scalar: facts.scalar.into(),
        length_preserving: facts.length_preserving.into(),
        option,
        children: children.into_iter().map(|node| node.0 as u8).collect(),
    }
}

/// Kind, option and children.
fn numbers(record: &AExpr) -> (u8, u8, Vec<Node>) {
    let entries = |list: &[ExprIR]| list.iter().map(ExprIR::node).collect::<Vec<_>>();
    let first_then = |first: &Node, more: Vec<Node>| [vec![*first], more].concat();

    match record {
        AExpr::Column(_) => (kind::COLUMN, 0, vec![]),
        AExpr::Literal(_) => (kind::LITERAL, 0, vec![]),
        AExpr::Element => (kind::ELEMENT, 0, vec![]),
        AExpr::StructField(_) => (kind::STRUCT_FIELD, 0, vec![]),
        AExpr::Len => (kind::LEN, 0, vec![]),
        AExpr::BinaryExpr { left, right, .. } => (kind::BINARY_EXPR, 0, vec![*left, *right]),
        AExpr::Ternary { predicate, truthy, falsy } => (kind::TERNARY, 0, vec![*predicate, *truthy, *falsy]),
        AExpr::Cast { expr, .. } => (kind::CAST, 0, vec![*expr]),
        AExpr::Explode { expr, .. } => (kind::EXPLODE, 0, vec![*expr]),
        AExpr::Sort { expr, .. } => (kind::SORT, 0, vec![*expr]),
        AExpr::SortBy { expr, by, sort_options } => {
            (kind::SORT_BY, sort_options.maintain_order.into(), first_then(expr, by.clone()))
        },
        AExpr::Filter { input, by } => (kind::FILTER, 0, vec![*input, *by]),
        AExpr::Gather { expr, idx, returns_scalar, .. } => (kind::GATHER, (*returns_scalar).into(), vec![*expr, *idx]),
        AExpr::Slice { input, offset, length } => (kind::SLICE, 0, vec![*input, *offset, *length]),
        AExpr::Eval { expr, evaluation, variant } => {
            let cumulative = matches!(variant, EvalVariant::Cumulative { .. });
            (kind::EVAL, cumulative.into(), vec![*expr, *evaluation])
        },
        AExpr::StructEval { expr, evaluation } => (kind::STRUCT_EVAL, 0, first_then(expr, entries(evaluation))),
        AExpr::Over { function, partition_by, order_by, .. } => {
            let mut children = first_then(function, partition_by.clone());
            children.extend(order_by.iter().map(|(node, _)| *node));
            (kind::OVER, order_by.is_some().into(), children)
        },
        AExpr::Rolling { function, index_column, .. } => (kind::ROLLING, 0, vec![*function, *index_column]),
        AExpr::Function { input, function: IRFunctionExpr::MinBy | IRFunctionExpr::MaxBy, .. } => {
            (kind::MIN_BY, 0, entries(input))
        },
        AExpr::Function { input, options, .. } | AExpr::AnonymousFunction { input, options } => {
            (kind::FUNCTION, flag_bits(options.flags), entries(input))
        },
        AExpr::AnonymousAgg { input, .. } => (kind::ANONYMOUS_AGG, 0, entries(input)),
        AExpr::Agg(agg) => agg_numbers(agg),
    }
}

fn agg_numbers(agg: &IRAggExpr) -> (u8, u8, Vec<Node>) {
    match agg {
        IRAggExpr::First(node)
        | IRAggExpr::FirstNonNull(node)
        | IRAggExpr::Last(node)
        | IRAggExpr::LastNonNull(node) => (kind::FIRST, 0, vec![*node]),
        IRAggExpr::Min { input, .. }
        | IRAggExpr::Max { input, .. }
        | IRAggExpr::Mean(input)
        | IRAggExpr::Median(input)
        | IRAggExpr::Sum(input)
        | IRAggExpr::Item { input, .. }
        | IRAggExpr::NUnique(input)
        | IRAggExpr::Count { input, .. }
        | IRAggExpr::Std(input, _)
        | IRAggExpr::Var(input, _) => (kind::MIN, 0, vec![*input]),
        IRAggExpr::Implode { input, maintain_order } => (kind::IMPLODE, (*maintain_order).into(), vec![*input]),
        IRAggExpr::AggGroups(node) => (kind::AGG_GROUPS, 0, vec![*node]),
    }
}

fn flag_bits(flags: FunctionFlags) -> u8 {
    let bits = FLAGS.iter().enumerate();
    bits.map(|(bit, flag)| u8::from(flags.contains(*flag)) << bit).sum()
}
