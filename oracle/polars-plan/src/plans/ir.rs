//! The steps of a plan.
use std::sync::Arc;

use polars_ops::prelude::{JoinType, MaintainOrderJoin};
use polars_utils::arena::{Arena, Item, Node};
use polars_utils::unique_id::UniqueId;

use crate::dsl::{GroupbyOptions, SinkTypeIR, UnionOptions};
use crate::plans::{DistinctOptionsIR, ExprIR, FunctionIR, SortOptions, Unread};

#[derive(Clone, Debug)]
pub enum IR {
    Slice {
        input: Node,
    },
    Filter {
        input: Node,
        predicate: ExprIR,
    },
    Scan,
    DataFrameScan,
    SimpleProjection {
        input: Node,
    },
    Select {
        input: Node,
        expr: Vec<ExprIR>,
    },
    Sort {
        input: Node,
        by_column: Vec<ExprIR>,
        slice: Option<(i64, usize)>,
        sort_options: SortOptions,
    },
    Cache {
        input: Node,
        id: UniqueId,
    },
    GroupBy {
        input: Node,
        keys: Vec<ExprIR>,
        aggs: Vec<ExprIR>,
        schema: Unread,
        maintain_order: bool,
        options: Arc<GroupbyOptions>,
        apply: Option<Unread>,
    },
    Join {
        input_left: Node,
        input_right: Node,
        schema: Unread,
        left_on: Vec<ExprIR>,
        right_on: Vec<ExprIR>,
        options: Arc<JoinOptionsIR>,
    },
    Gather {
        input: Node,
        idxs: Node,
    },
    HStack {
        input: Node,
        exprs: Vec<ExprIR>,
        schema: Schema,
    },
    Distinct {
        input: Node,
        options: DistinctOptionsIR,
    },
    MapFunction {
        input: Node,
        function: FunctionIR,
    },
    Union {
        inputs: Vec<Node>,
        options: UnionOptions,
    },
    HConcat {
        inputs: Vec<Node>,
    },
    ExtContext {
        input: Node,
        contexts: Vec<Node>,
    },
    Sink {
        input: Node,
        payload: SinkTypeIR,
    },
    SinkMultiple {
        inputs: Vec<Node>,
    },
    MergeSorted {
        input_left: Node,
        input_right: Node,
        maintain_order: bool,
    },
    UnoptimizedDispatch {
        inputs: Vec<Node>,
    },
    Invalid,
}

#[derive(Clone, Debug)]
pub struct JoinOptionsIR {
    pub args: JoinArgs,
}

#[derive(Clone, Debug)]
pub struct JoinArgs {
    pub how: JoinType,
    pub maintain_order: MaintainOrderJoin,
}

/// Of a schema only the number of columns is read.
#[derive(Clone, Copy, Debug)]
pub struct Schema {
    pub columns: usize,
}

impl Schema {
    #[allow(clippy::len_without_is_empty)]
    pub fn len(&self) -> usize {
        self.columns
    }
}

impl IR {
    /// The inputs, in the order of a sheet's line.
    pub fn inputs(&self) -> Vec<Node> {
        let mut inputs = vec![];
        self.copy_inputs(&mut inputs);
        inputs
    }

    pub fn copy_inputs(&self, to: &mut Vec<Node>) {
        match self {
            IR::Scan | IR::DataFrameScan | IR::Invalid => {},
            IR::Slice { input }
            | IR::Filter { input, .. }
            | IR::SimpleProjection { input }
            | IR::Select { input, .. }
            | IR::Sort { input, .. }
            | IR::Cache { input, .. }
            | IR::GroupBy { input, .. }
            | IR::HStack { input, .. }
            | IR::Distinct { input, .. }
            | IR::MapFunction { input, .. }
            | IR::Sink { input, .. } => to.push(*input),
            IR::Gather { input, idxs } => to.extend([*input, *idxs]),
            IR::Join { input_left, input_right, .. } | IR::MergeSorted { input_left, input_right, .. } => {
                to.extend([*input_left, *input_right])
            },
            IR::Union { inputs, .. }
            | IR::HConcat { inputs }
            | IR::SinkMultiple { inputs }
            | IR::UnoptimizedDispatch { inputs } => to.extend(inputs),
            IR::ExtContext { input, contexts } => {
                to.push(*input);
                to.extend(contexts);
            },
        }
    }

    pub fn inputs_mut(&mut self) -> impl Iterator<Item = &mut Node> {
        let inputs: Vec<&mut Node> = match self {
            IR::Scan | IR::DataFrameScan | IR::Invalid => vec![],
            IR::Slice { input }
            | IR::Filter { input, .. }
            | IR::SimpleProjection { input }
            | IR::Select { input, .. }
            | IR::Sort { input, .. }
            | IR::Cache { input, .. }
            | IR::GroupBy { input, .. }
            | IR::HStack { input, .. }
            | IR::Distinct { input, .. }
            | IR::MapFunction { input, .. }
            | IR::Sink { input, .. } => vec![input],
            IR::Gather { input, idxs } => vec![input, idxs],
            IR::Join { input_left, input_right, .. } | IR::MergeSorted { input_left, input_right, .. } => {
                vec![input_left, input_right]
            },
            IR::Union { inputs, .. }
            | IR::HConcat { inputs }
            | IR::SinkMultiple { inputs }
            | IR::UnoptimizedDispatch { inputs } => inputs.iter_mut().collect(),
            IR::ExtContext { input, contexts } => std::iter::once(input).chain(contexts).collect(),
        };

        inputs.into_iter()
    }
}

impl Item for IR {
    type Facts = ();

    fn facts_when_added(&self) {}

    fn facts_when_replacing(&self, _place: Node, _arena: &Arena<IR>) {}
}
