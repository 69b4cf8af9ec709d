//! The names that the ported files take from `crate::prelude`.
pub use crate::plans::{AExpr, IR};
