//! Expression records, and the facts that a sheet states about each.
use polars_utils::arena::{Arena, Item, Node};

use crate::dsl::EvalVariant;
use crate::plans::{ExprIR, FunctionOptions};

#[derive(Clone, Debug, PartialEq)]
pub enum IRAggExpr {
    Min { input: Node, propagate_nans: bool },
    Max { input: Node, propagate_nans: bool },
    Median(Node),
    NUnique(Node),
    Item { input: Node, allow_empty: bool },
    First(Node),
    FirstNonNull(Node),
    Last(Node),
    LastNonNull(Node),
    Mean(Node),
    Implode { input: Node, maintain_order: bool },
    Sum(Node),
    Count { input: Node, include_nulls: bool },
    Std(Node, u8),
    Var(Node, u8),
    AggGroups(Node),
}

#[derive(Clone, Debug, PartialEq)]
pub enum AExpr {
    Element,
    Explode { expr: Node, options: Unread },
    Column(Unread),
    StructField(Unread),
    Literal(LiteralValue),
    BinaryExpr { left: Node, op: Unread, right: Node },
    Cast { expr: Node, options: Unread },
    Sort { expr: Node, options: SortOptions },
    Gather { expr: Node, idx: Node, returns_scalar: bool, null_on_oob: bool },
    SortBy { expr: Node, by: Vec<Node>, sort_options: SortOptions },
    Filter { input: Node, by: Node },
    Agg(IRAggExpr),
    Ternary { predicate: Node, truthy: Node, falsy: Node },
    AnonymousAgg { input: Vec<ExprIR>, fmt_str: Unread, function: Unread },
    AnonymousFunction { input: Vec<ExprIR>, options: FunctionOptions },
    Eval { expr: Node, evaluation: Node, variant: EvalVariant },
    StructEval { expr: Node, evaluation: Vec<ExprIR> },
    Function { input: Vec<ExprIR>, function: IRFunctionExpr, options: FunctionOptions },
    Over { function: Node, partition_by: Vec<Node>, order_by: Option<(Node, SortOptions)>, mapping: Unread },
    Rolling { function: Node, index_column: Node, period: Unread, offset: Unread, closed_window: Unread },
    Slice { input: Node, offset: Node, length: Node },
    Len,
}

/// Names, data types, operators and windows: there in the source, of no account here.
#[derive(Clone, Copy, Debug, PartialEq)]
pub struct Unread;

#[derive(Clone, Copy, Debug, PartialEq)]
pub struct SortOptions {
    pub maintain_order: bool,
}

#[derive(Clone, Copy, Debug, PartialEq)]
pub enum IRFunctionExpr {
    MinBy,
    MaxBy,
    Other,
}

#[derive(Clone, Debug, PartialEq)]
pub struct LiteralValue {
    pub scalar: bool,
}

impl LiteralValue {
    pub fn is_scalar(&self) -> bool {
        self.scalar
    }
}

/// S and L of an E line. The source works these out from a whole tree; a sheet states them for each record.
///
/// They can't be fields of `AExpr`, since the ported code makes and matches its records field by field. So they stand
/// beside the record in the arena. The ported code puts a record into an arena in three ways only, and each way tells
/// what the facts are: an added record is the Implode over an agg; a sort is replaced by a copy of what it sorts; an
/// Implode is replaced by itself with its option off.
#[derive(Clone, Copy, Debug, PartialEq)]
pub struct Facts {
    pub scalar: bool,
    pub length_preserving: bool,
}

impl Item for AExpr {
    type Facts = Facts;

    fn facts_when_added(&self) -> Facts {
        assert!(matches!(self, AExpr::Agg(IRAggExpr::Implode { .. })), "{self:?} added");
        Facts { scalar: true, length_preserving: false }
    }

    fn facts_when_replacing(&self, place: Node, arena: &Arena<AExpr>) -> Facts {
        let source = match arena.get(place) {
            AExpr::Sort { expr, .. } | AExpr::SortBy { expr, .. } => {
                assert_eq!(self, arena.get(*expr), "not a copy of what is sorted");
                *expr
            },
            AExpr::Agg(IRAggExpr::Implode { .. }) => place,
            other => panic!("{other:?} replaced"),
        };

        arena.facts(source)
    }
}

pub fn is_scalar_ae(node: Node, arena: &Arena<AExpr>) -> bool {
    arena.facts(node).scalar
}

pub fn is_length_preserving_ae(node: Node, arena: &Arena<AExpr>) -> bool {
    arena.facts(node).length_preserving
}
