//! The formulas made at random: what comes up among them.
use oracle::formula::LONGEST_FORMULA;
use oracle::generate::formulas::formula;

use crate::answer;

const SEED: u64 = 20;

#[test]
fn the_same_words_give_the_same_formulas() {
    for number in 0..200 {
        assert_eq!(formula(SEED, number), formula(SEED, number));
    }
    assert!((0..200).any(|number| formula(SEED, number) != formula(SEED + 1, number)));
}

#[test]
fn every_answer_comes_up() {
    let mut shares = [0; 16];
    let mut greatest = 0;
    let mut longest = 0;
    for number in 0..5_000 {
        let formula = formula(SEED, number);
        match answer(&formula) {
            Ok(text) => {
                shares[0] += 1;
                greatest = greatest.max(text.lines().count());
                longest = longest.max(formula.len());
            },
            Err(number) => shares[usize::from(number)] += 1,
        }
    }
    assert!(shares[0] > 2_000 && shares[2] > 10 && shares[14] > 1_500 && shares[15] > 200, "{shares:?}");
    assert_eq!((greatest, longest), (127, LONGEST_FORMULA));
}
