//! The functions of a MapFunction. The methods that the ported code calls are the text of the source.

#[derive(Clone, Copy, Debug)]
pub enum FunctionIR {
    RowIndex,
    FastCount,
    Unnest,
    Rechunk,
    Explode,
    Unpivot,
    Opaque,
    Hint(HintIR),
}

#[derive(Clone, Copy, Debug)]
pub struct HintIR;

#[allow(warnings)]
mod methods {
    use super::FunctionIR;

    include!(concat!(env!("OUT_DIR"), "/function_ir.rs"));
}
