//! Plans: expression records, steps, and the ported module itself.
mod aexpr;
mod expr_ir;
mod functions;
mod ir;
mod options;

pub use aexpr::*;
pub use expr_ir::ExprIR;
pub use functions::{FunctionIR, HintIR};
pub use ir::*;
pub use options::{DistinctOptionsIR, FunctionFlags, FunctionOptions};

#[allow(warnings)]
pub mod simplify_ordering {
    include!(concat!(env!("OUT_DIR"), "/simplify_ordering/mod.rs"));
}
