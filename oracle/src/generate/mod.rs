//! Sheets made at random, by families. A sheet follows from family, seed and number alone; a formula from seed and number.
mod damage;
mod deep;
pub mod formulas;
mod maker;
mod noise;
mod plans;
mod random;
pub mod share;
mod trees;
mod uses;

use maker::{Maker, Shape};
use random::Random;

use crate::batch;
use crate::reading::{MOST_EXPRS, MOST_STEPS};
use crate::sheet::Sheet;

#[derive(Clone, Copy, Debug, PartialEq, Eq)]
pub enum Family {
    /// Plans of all sizes without a fault, most of them accepted.
    Valid,
    /// A few lines, and less care for keys.
    Small,
    /// At 128 expressions and 32 steps, now and then one more.
    Limit,
    /// Long chains and high trees.
    Deep,
    /// A valid sheet with one or two faults put in.
    Near,
    /// Random bytes and damaged text.
    Noise,
    /// A valid sheet with lines named by none or too often.
    Uses,
}

pub const FAMILIES: [(&str, Family); 7] = [
    ("valid", Family::Valid),
    ("small", Family::Small),
    ("limit", Family::Limit),
    ("deep", Family::Deep),
    ("near", Family::Near),
    ("noise", Family::Noise),
    ("uses", Family::Uses),
];

/// Sheet number `number` of a family and seed.
pub fn sheet(family: Family, seed: u64, number: u64) -> Vec<u8> {
    let mut random = Random::new(&[family as u64, seed, number]);

    loop {
        let sheet = match family {
            Family::Valid => valid(&mut random).text(),
            Family::Small => small(&mut random).text(),
            Family::Limit => limit(&mut random).text(),
            Family::Deep => deep::deep(&mut random).text(),
            Family::Near => damage::near(&mut random),
            Family::Noise => noise::noise(&mut random),
            Family::Uses => uses::uses(&mut random).text(),
        };
        if batch::can_carry(&sheet) {
            return sheet;
        }
    }
}

fn valid(random: &mut Random) -> Sheet {
    let steps = *random.pick(&[3, 4, 5, 6, 7, 8, 10, 12, 16, 24]);
    let largest_tree = *random.pick(&[2, 3, 4, 6, 8, 14]);
    Maker::new(random, Shape { steps, largest_tree, careful: 96 }).plan()
}

fn small(random: &mut Random) -> Sheet {
    let steps = *random.pick(&[2, 3, 3, 4, 4, 5]);
    let largest_tree = random.between(1, 4);
    Maker::new(random, Shape { steps, largest_tree, careful: 60 }).plan()
}

fn limit(random: &mut Random) -> Sheet {
    // One more of either than a sheet has room for is refused.
    let (steps, exprs) = match random.below(10) {
        0 => (MOST_STEPS + 1, MOST_EXPRS),
        1 => (MOST_STEPS, MOST_EXPRS + 1),
        _ => (MOST_STEPS, MOST_EXPRS),
    };
    let largest_tree = random.between(2, 8);
    Maker::new(random, Shape { steps, largest_tree, careful: 99 }).full_plan(exprs)
}
