//! The options of steps and expressions that live in `crate::dsl`.
use crate::plans::ExprIR;

#[derive(Clone, Copy, Debug, PartialEq)]
pub enum EvalVariant {
    List,
    ListAgg,
    Array { as_list: bool },
    ArrayAgg,
    Cumulative { min_samples: usize },
}

#[derive(Clone, Debug)]
pub struct UnionOptions {
    pub slice: Option<(i64, usize)>,
    pub maintain_order: bool,
}

impl Default for UnionOptions {
    fn default() -> Self {
        Self { slice: None, maintain_order: true }
    }
}

#[derive(Clone, Debug)]
pub struct GroupbyOptions {
    pub dynamic: bool,
    pub rolling: bool,
}

impl GroupbyOptions {
    pub fn is_dynamic(&self) -> bool {
        self.dynamic
    }

    pub fn is_rolling(&self) -> bool {
        self.rolling
    }
}

#[derive(Clone, Debug)]
pub enum SinkTypeIR {
    File(FileSinkOptions),
    Partitioned(PartitionedSinkOptionsIR),
}

#[derive(Clone, Debug)]
pub struct FileSinkOptions {
    pub maintain_order: bool,
}

#[derive(Clone, Debug)]
pub struct PartitionedSinkOptionsIR {
    pub maintain_order: bool,
    pub keys: Vec<ExprIR>,
}

impl PartitionedSinkOptionsIR {
    pub fn expr_irs_iter(&self) -> impl ExactSizeIterator<Item = &ExprIR> {
        self.keys.iter()
    }
}

impl SinkTypeIR {
    pub fn maintain_order(&self) -> bool {
        match self {
            SinkTypeIR::File(options) => options.maintain_order,
            SinkTypeIR::Partitioned(options) => options.maintain_order,
        }
    }

    pub fn set_maintain_order(&mut self, value: bool) {
        match self {
            SinkTypeIR::File(options) => options.maintain_order = value,
            SinkTypeIR::Partitioned(options) => options.maintain_order = value,
        }
    }
}
