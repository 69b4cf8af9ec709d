//! Long chains of steps, high trees, and caches named many times one above the other.
use super::maker::{Maker, Shape};
use super::random::Random;
use crate::kinds::expr::{COLUMN, FUNCTION, LITERAL, OVER, STRUCT_EVAL, STRUCT_FIELD};
use crate::kinds::{expr, step};
use crate::reading::{MOST_EXPRS, MOST_STEPS};
use crate::sheet::Sheet;
use crate::tables::EXPR_ROWS;

pub fn deep(random: &mut Random) -> Sheet {
    let largest_tree = random.between(1, 4);
    let way = random.below(9);
    let mut maker = Maker::new(random, Shape { steps: MOST_STEPS, largest_tree, careful: 99 });
    match way {
        0..4 => maker.high_tree(),
        4..6 => maker.long_chain(),
        6..8 => maker.cache_ladder(),
        _ => maker.cache_fan(),
    }
    maker.shuffled()
}

impl Maker<'_> {
    /// One tree as high as the sheet allows, in a list of one step.
    fn high_tree(&mut self) {
        const KINDS: [u8; 10] = [
            step::SELECT,
            step::SELECT,
            step::SELECT,
            step::HSTACK,
            step::SORT,
            step::FILTER,
            step::GROUP_BY,
            step::GROUP_BY,
            step::SINK,
            step::JOIN,
        ];
        let size = if self.random.chance(30) { MOST_EXPRS } else { self.random.between(20, MOST_EXPRS - 1) };
        let kind = *self.random.pick(&KINDS);
        // An agg needs room for an Implode, so that the tree is one record lower.
        let as_agg = kind == step::GROUP_BY && self.random.chance(50);
        let root = self.spine(size.min(MOST_EXPRS - usize::from(as_agg)));
        self.room = 0;

        let scan = self.add_step(step::SCAN, vec![]);
        let mut inputs = vec![scan];
        if kind == step::JOIN {
            inputs.push(self.add_step(step::SCAN, vec![]));
        }
        let step = self.add_step(kind, inputs);
        let line = &mut self.sheet.steps[usize::from(step)];
        line.kind = kind;
        match kind {
            step::GROUP_BY if as_agg => line.more_exprs = vec![root],
            step::SINK => {
                line.b = 1;
                line.exprs = vec![root];
                return;
            },
            _ => line.exprs = vec![root],
        }
        self.add_step(step::SINK, vec![step]);
    }

    /// A tree of `size` records whose height is nearly that, of a few kinds only.
    fn spine(&mut self, size: usize) -> u8 {
        let kinds: Vec<(u8, u8)> = (0..self.random.between(1, 4)).map(|_| self.kind_with_children()).collect();
        let leaf = *self.random.pick(&[COLUMN, COLUMN, COLUMN, LITERAL]);
        let mut top = self.add_expr(leaf, 0, vec![]);

        while self.sheet.exprs.len() < size {
            let left = size - self.sheet.exprs.len();
            let fitting: Vec<(u8, u8)> =
                kinds.iter().copied().filter(|&(kind, option)| least(kind, option) <= left).collect();
            let (kind, option) = if fitting.is_empty() { (expr::CAST, 0) } else { *self.random.pick(&fitting) };

            let count = least(kind, option);
            let spine = self.random.below(count);
            let mut children = vec![];
            for child in 0..count {
                if child == spine {
                    children.push(top);
                    continue;
                }
                let field = kind == STRUCT_EVAL && child >= 1 && self.random.chance(60);
                let leaf = if field { STRUCT_FIELD } else { *self.random.pick(&[COLUMN, LITERAL, LITERAL]) };
                children.push(self.add_expr(leaf, 0, vec![]));
            }
            top = self.add_expr(kind, option, children);
        }

        top
    }

    fn kind_with_children(&mut self) -> (u8, u8) {
        if self.random.chance(35) {
            return (FUNCTION, self.random.below(64) as u8);
        }
        let kinds: Vec<u8> = (0..expr::COUNT).filter(|&kind| EXPR_ROWS[usize::from(kind)].most > 0).collect();
        let kind = *self.random.pick(&kinds);
        (kind, self.random.between(0, usize::from(EXPR_ROWS[usize::from(kind)].option)) as u8)
    }

    /// Steps of one input, one upon the other, of a few kinds only, often sorts.
    fn long_chain(&mut self) {
        const KINDS: [u8; 11] = [
            step::SORT,
            step::SORT,
            step::SELECT,
            step::HSTACK,
            step::FILTER,
            step::GROUP_BY,
            step::DISTINCT,
            step::MAP_FUNCTION,
            step::SLICE,
            step::SIMPLE_PROJECTION,
            step::CACHE,
        ];
        let kinds: Vec<u8> = (0..self.random.between(1, 4)).map(|_| *self.random.pick(&KINDS)).collect();

        self.add_step(step::SCAN, vec![]);
        while self.sheet.steps.len() < MOST_STEPS - 1 {
            let input = self.open.remove(0);
            let kind = *self.random.pick(&kinds);
            self.add_step(kind, vec![input]);
        }
        let input = self.open.remove(0);
        self.add_step(step::SINK, vec![input]);
    }

    /// One cache that every later step names with all the inputs it has left: the most edges that a sheet can have.
    fn cache_fan(&mut self) {
        const KINDS: [u8; 4] = [step::UNOPTIMIZED_DISPATCH, step::UNION, step::HCONCAT, step::EXT_CONTEXT];

        let scan = self.add_step(step::SCAN, vec![]);
        let cache = self.add_step(step::CACHE, vec![scan]);
        let mut top = cache;
        while self.sheet.steps.len() < MOST_STEPS - 1 {
            let mut inputs = vec![cache; 8];
            inputs[self.random.below(8)] = top;
            let kind = *self.random.pick(&KINDS);
            top = self.add_step(kind, inputs);
        }
        self.add_step(step::SINK, vec![top]);
    }

    /// A cache, a step that names it up to eight times, a cache of that, and so on; Sinks on some of the caches.
    fn cache_ladder(&mut self) {
        const KINDS: [u8; 10] = [
            step::UNION,
            step::UNION,
            step::HCONCAT,
            step::HCONCAT,
            step::EXT_CONTEXT,
            step::UNOPTIMIZED_DISPATCH,
            step::JOIN,
            step::GATHER,
            step::MERGE_SORTED,
            step::MERGE_SORTED,
        ];

        self.add_step(step::SCAN, vec![]);
        while self.sheet.steps.len() < MOST_STEPS - 6 {
            let below = self.open.remove(0);
            let sorted = if self.random.chance(40) { self.add_step(step::SORT, vec![below]) } else { below };
            let cache = self.add_step(step::CACHE, vec![sorted]);
            if self.random.chance(30) {
                self.add_step(step::SINK, vec![cache]);
            }
            let kind = *self.random.pick(&KINDS);
            let count = if matches!(kind, step::JOIN | step::GATHER | step::MERGE_SORTED) {
                2
            } else {
                self.random.between(1, 8)
            };
            self.open.clear();
            self.add_step(kind, vec![cache; count]);
        }
        let input = self.open.remove(0);
        self.add_step(step::SINK, vec![input]);
    }
}

/// The least children of a kind that has any.
fn least(kind: u8, option: u8) -> usize {
    match kind {
        STRUCT_EVAL => 2,
        OVER if option == 1 => 2,
        _ => EXPR_ROWS[usize::from(kind)].least.max(1),
    }
}
