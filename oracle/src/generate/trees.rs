//! Expression trees.
use super::maker::Maker;
use super::random::Random;
use crate::kinds::expr::{self, *};
use crate::sheet::ExprLine;
use crate::tables::EXPR_ROWS;

/// Where a tree stands, as far as it bears on what may stand there.
#[derive(Clone, Copy)]
pub struct Place {
    pub wish: Wish,
    /// Under an evaluation child of a StructEval.
    pub field: bool,
    /// Under the evaluation child of an Eval.
    pub element: bool,
}

#[derive(Clone, Copy, PartialEq)]
pub enum Wish {
    /// Anything.
    Any,
    /// Nothing that a key may not be.
    Key,
    /// Under an aggregate that lifts order, within a key: sorts too.
    Lifted,
}

pub const ANYWHERE: Place = Place { wish: Wish::Any, field: false, element: false };
pub const KEY: Place = Place { wish: Wish::Key, field: false, element: false };

/// How often each kind comes, for each wish.
const WEIGHTS: [[usize; 3]; expr::COUNT as usize] = [
    [30, 30, 30], // 0 Column
    [12, 10, 10], // 1 Literal
    [3, 0, 1],    // 2 Element
    [0, 0, 0],    // 3 StructField
    [3, 3, 3],    // 4 Len
    [10, 10, 10], // 5 BinaryExpr
    [8, 6, 6],    // 6 Ternary
    [5, 8, 6],    // 7 Cast
    [5, 0, 4],    // 8 Explode
    [12, 0, 12],  // 9 Sort
    [12, 0, 12],  // 10 SortBy
    [7, 3, 4],    // 11 Filter
    [5, 0, 0],    // 12 Gather
    [4, 0, 0],    // 13 Slice
    [5, 1, 1],    // 14 Eval
    [10, 8, 10],  // 15 StructEval
    [4, 0, 0],    // 16 Over
    [3, 0, 0],    // 17 Rolling
    [3, 0, 0],    // 18 MinBy, MaxBy
    [14, 10, 10], // 19 Function
    [3, 0, 0],    // 20 AnonymousAgg
    [6, 0, 0],    // 21 First and the like
    [10, 6, 6],   // 22 Min to Var
    [8, 1, 1],    // 23 Implode
    [3, 0, 0],    // 24 AggGroups
];

impl Maker<'_> {
    /// Adds a line above children that are already there, with plausible S and L.
    pub fn add_expr(&mut self, kind: u8, option: u8, children: Vec<u8>) -> u8 {
        let of = |child: u8| &self.sheet.exprs[usize::from(child)];
        let (scalar, length_preserving) = facts(kind, option, &children.iter().map(|&c| of(c)).collect::<Vec<_>>());
        let scalar = if kind == LITERAL { self.random.chance(70) } else { scalar ^ self.random.chance(8) };
        let length_preserving = length_preserving ^ self.random.chance(12);

        self.room = self.room.saturating_sub(1);
        self.sheet.exprs.push(ExprLine {
            kind,
            scalar: scalar.into(),
            length_preserving: length_preserving.into(),
            option,
            children,
        });
        (self.sheet.exprs.len() - 1) as u8
    }

    /// Adds a tree of `size` records and gives its root.
    pub fn tree(&mut self, size: usize, place: Place) -> u8 {
        if size >= 6 && self.random.chance(4) {
            return self.field_over_a_sort(size, place);
        }

        let kind = self.kind_for(size, place);
        let row = &EXPR_ROWS[usize::from(kind)];
        let most = row.most.min(size - 1);
        let least = row.least.max(1).min(most);
        let count = if self.random.chance(70) { least.max(most.min(2)) } else { self.random.between(least, most) };

        let option = self.option_for(kind, count, place);
        let mut children = vec![];
        for (index, size) in parts(self.random, size - 1, count).into_iter().enumerate() {
            let place = self.place_below(kind, index, place);
            children.push(self.tree(size, place));
        }

        let root = self.add_expr(kind, option, children);
        if kind == LITERAL && place.wish != Wish::Any {
            self.sheet.exprs[usize::from(root)].scalar = 1;
        }
        root
    }

    /// Min(StructEval(Sort(..), First(StructField))): its second visit differs from its first.
    fn field_over_a_sort(&mut self, size: usize, place: Place) -> u8 {
        let sorted = self.tree(size - 5, place);
        let sort = self.add_expr(SORT, 0, vec![sorted]);
        let field = self.add_expr(STRUCT_FIELD, 0, vec![]);
        let first = self.add_expr(FIRST, 0, vec![field]);
        let eval = self.add_expr(STRUCT_EVAL, 0, vec![sort, first]);
        self.add_expr(MIN, 0, vec![eval])
    }

    fn kind_for(&mut self, size: usize, place: Place) -> u8 {
        let mut weights = [0; expr::COUNT as usize];
        for (kind, row) in EXPR_ROWS.iter().enumerate() {
            let fits = if size == 1 { row.least == 0 } else { row.most > 0 && row.least < size };
            if fits {
                weights[kind] = WEIGHTS[kind][place.wish as usize];
            }
            // A Function or AnonymousAgg of nothing is the exception.
            if size == 1 && row.most > 0 {
                weights[kind] = weights[kind].div_ceil(4);
            }
        }
        if size == 1 && place.field {
            weights[usize::from(STRUCT_FIELD)] = 30;
        }
        if size == 1 && place.element {
            weights[usize::from(ELEMENT)] = 30;
        }
        self.random.weighted(&weights) as u8
    }

    fn option_for(&mut self, kind: u8, children: usize, place: Place) -> u8 {
        match kind {
            FUNCTION if place.wish != Wish::Any => {
                let flags: Vec<u8> = (0..64).filter(|&flags| may_be_key(flags)).collect();
                *self.random.pick(&flags)
            },
            EVAL if place.wish != Wish::Any => 0,
            OVER if children < 2 => 0,
            _ => self.random.between(0, usize::from(EXPR_ROWS[usize::from(kind)].option)) as u8,
        }
    }

    fn place_below(&mut self, kind: u8, child: usize, place: Place) -> Place {
        Place {
            wish: match (place.wish, kind) {
                (Wish::Key, MIN) => Wish::Lifted,
                (wish, _) => wish,
            },
            field: place.field || (kind == STRUCT_EVAL && child >= 1),
            element: place.element || (kind == EVAL && child == 1),
        }
    }
}

/// Does a Function with these flags neither observe an order nor make one?
fn may_be_key(flags: u8) -> bool {
    let on = |flag: u8| flags & flag != 0;
    let observes = !(on(1) || on(4));
    let makes = !(on(32) || on(16) || (on(1) && on(2)));
    !observes && !makes
}

/// `total` cut into `count` parts, none empty.
fn parts(random: &mut Random, total: usize, count: usize) -> Vec<usize> {
    let mut parts = vec![1; count];
    for _ in count..total {
        let part = random.below(count);
        parts[part] += 1;
    }
    parts
}

/// S and L as the kind and the children suggest.
fn facts(kind: u8, option: u8, children: &[&ExprLine]) -> (bool, bool) {
    let scalar = |child: &&ExprLine| child.scalar == 1;
    let length_preserving = |child: &&ExprLine| child.length_preserving == 1;
    let first_keeps_length = children.first().is_some_and(length_preserving);

    match kind {
        COLUMN | ELEMENT | STRUCT_FIELD => (false, true),
        LITERAL | LEN => (true, false),
        BINARY_EXPR | TERNARY | CAST => (children.iter().all(scalar), children.iter().any(length_preserving)),
        EXPLODE | FILTER | SLICE | AGG_GROUPS => (false, false),
        SORT | SORT_BY | EVAL | STRUCT_EVAL => (children.iter().all(scalar), first_keeps_length),
        GATHER => (option == 1, false),
        OVER | ROLLING => (false, true),
        FUNCTION => (option & 16 != 0, option & 2 != 0),
        _ => (true, false),
    }
}
