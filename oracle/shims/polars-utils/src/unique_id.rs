//! The id of a cache: the number that its line on the sheet gives.

#[derive(Clone, Copy, Debug, PartialEq, Eq, Hash)]
pub struct UniqueId(pub u8);
