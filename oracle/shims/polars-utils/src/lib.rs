//! What `simplify_ordering` uses of polars-utils.
pub mod arena;
pub mod array;
pub mod scratch_vec;
pub mod unique_id;

/// A vector for which one element is the usual length.
pub type UnitVec<T> = Vec<T>;
