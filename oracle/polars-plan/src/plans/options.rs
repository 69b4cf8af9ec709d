//! Options of functions and of Distinct. `FunctionFlags` and its methods are the text of the source.
use polars_core::frame::UniqueKeepStrategy;

pub use flags::FunctionFlags;

#[allow(warnings)]
mod flags {
    use bitflags::bitflags;

    include!(concat!(env!("OUT_DIR"), "/function_flags.rs"));
}

#[derive(Clone, Copy, Debug, PartialEq)]
pub struct FunctionOptions {
    pub flags: FunctionFlags,
}

#[derive(Clone, Debug)]
pub struct DistinctOptionsIR {
    pub maintain_order: bool,
    pub keep_strategy: UniqueKeepStrategy,
    pub slice: Option<(i64, usize)>,
}
