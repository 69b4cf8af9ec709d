//! `IndexMap`: a map that keeps the order of insertion. The maps here are small, so a search goes along the entries.
pub mod map;

pub use map::IndexMap;
