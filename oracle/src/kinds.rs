//! The kinds of E and P lines, by name.

pub mod expr {
    pub const COLUMN: u8 = 0;
    pub const LITERAL: u8 = 1;
    pub const ELEMENT: u8 = 2;
    pub const STRUCT_FIELD: u8 = 3;
    pub const LEN: u8 = 4;
    pub const BINARY_EXPR: u8 = 5;
    pub const TERNARY: u8 = 6;
    pub const CAST: u8 = 7;
    pub const EXPLODE: u8 = 8;
    pub const SORT: u8 = 9;
    pub const SORT_BY: u8 = 10;
    pub const FILTER: u8 = 11;
    pub const GATHER: u8 = 12;
    pub const SLICE: u8 = 13;
    pub const EVAL: u8 = 14;
    pub const STRUCT_EVAL: u8 = 15;
    pub const OVER: u8 = 16;
    pub const ROLLING: u8 = 17;
    /// MinBy or MaxBy.
    pub const MIN_BY: u8 = 18;
    pub const FUNCTION: u8 = 19;
    pub const ANONYMOUS_AGG: u8 = 20;
    /// First, Last and their NonNull forms.
    pub const FIRST: u8 = 21;
    /// Min to Var.
    pub const MIN: u8 = 22;
    pub const IMPLODE: u8 = 23;
    pub const AGG_GROUPS: u8 = 24;

    pub const COUNT: u8 = 25;
}

pub mod step {
    pub const SCAN: u8 = 0;
    pub const UNOPTIMIZED_DISPATCH: u8 = 1;
    pub const SINK: u8 = 2;
    pub const SELECT: u8 = 3;
    pub const HSTACK: u8 = 4;
    pub const SORT: u8 = 5;
    pub const FILTER: u8 = 6;
    pub const GROUP_BY: u8 = 7;
    pub const DISTINCT: u8 = 8;
    pub const JOIN: u8 = 9;
    pub const GATHER: u8 = 10;
    pub const UNION: u8 = 11;
    pub const MERGE_SORTED: u8 = 12;
    pub const MAP_FUNCTION: u8 = 13;
    pub const HCONCAT: u8 = 14;
    pub const SLICE: u8 = 15;
    pub const EXT_CONTEXT: u8 = 16;
    pub const SIMPLE_PROJECTION: u8 = 17;
    pub const CACHE: u8 = 18;

    pub const COUNT: u8 = 19;
}
