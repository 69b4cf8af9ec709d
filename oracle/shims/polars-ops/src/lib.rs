//! What `simplify_ordering` uses of polars-ops: the kinds of join and which side's order a join keeps.

pub mod prelude {
    #[derive(Clone, Debug)]
    pub enum JoinType {
        Inner,
        Left,
        Right,
        Full,
        AsOf(AsOfOptions),
        Semi,
        Anti,
        Cross,
    }

    #[derive(Clone, Debug)]
    pub struct AsOfOptions;

    #[derive(Clone, Copy, Debug, PartialEq, Eq)]
    pub enum MaintainOrderJoin {
        None,
        Left,
        Right,
        LeftRight,
        RightLeft,
    }
}
