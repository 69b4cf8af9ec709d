//! The part of polars-plan that `simplify_ordering` needs: its own types, cut down to what it reads of them.
pub mod dsl;
pub mod graph;
pub mod plans;
pub mod prelude;
pub mod watch;
