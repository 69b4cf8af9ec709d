//! The refusal numbers, by name.

pub const OUTPUT: u8 = 1;
pub const LENGTH: u8 = 2;
pub const FORM: u8 = 3;
pub const TABLE: u8 = 4;
pub const ROOM: u8 = 5;
pub const NO_STEP: u8 = 6;
pub const REFERENCE: u8 = 7;
pub const UNUSED: u8 = 8;
pub const STRUCT_FIELD: u8 = 9;
pub const JOIN: u8 = 10;
pub const PARTITIONED_SINK: u8 = 11;
pub const REUSED: u8 = 12;
pub const CACHE_ID: u8 = 13;
pub const NO_FORMULA: u8 = 14;
/// A formula with more E lines than there is room for.
pub const MANY_LINES: u8 = 15;
