//! What `simplify_ordering` uses of polars-core.

pub mod frame {
    /// Which of several equal rows a Distinct keeps.
    #[derive(Clone, Copy, Debug, PartialEq, Eq)]
    pub enum UniqueKeepStrategy {
        First,
        Last,
        None,
        Any,
    }
}

pub mod prelude {
    pub type PlIndexMap<K, V> = indexmap::IndexMap<K, V>;

    pub trait InitHashMaps {
        fn new() -> Self;
        fn with_capacity(capacity: usize) -> Self;
    }

    impl<K, V> InitHashMaps for PlIndexMap<K, V> {
        fn new() -> Self {
            Self::default()
        }

        fn with_capacity(capacity: usize) -> Self {
            Self::of_capacity(capacity)
        }
    }
}
