//! The right paper to a sheet: which edges it leaves out, and how these are seen on the finished sheet.
use oracle::generate::{FAMILIES, sheet};
use oracle::kinds::step;
use oracle::run::Finished;

use crate::lines;

const SEED: u64 = 25;

fn run(sheet: &str) -> Finished {
    oracle::try_run(sheet.as_bytes(), oracle::LEAST_OUTPUT).unwrap()
}

fn paper(sheet: &str) -> String {
    String::from_utf8(run(sheet).paper()).unwrap()
}

/// The steps that a Sink reaches through inputs, as the finished sheet names them: an input is an earlier step.
fn reached(finished: &str) -> Vec<bool> {
    let steps: Vec<Vec<usize>> = lines(finished, 'P')
        .iter()
        .map(|line| line.split(',').skip(1).map(|number| number.parse().unwrap()).collect())
        .collect();
    let mut reached: Vec<bool> = steps.iter().map(|numbers| numbers[0] == usize::from(step::SINK)).collect();
    for (place, numbers) in steps.iter().enumerate().rev() {
        if reached[place] {
            for &input in &numbers[7..7 + numbers[4]] {
                reached[input] = true;
            }
        }
    }
    reached
}

#[test]
fn only_the_edge_into_the_removed_sort_is_left_out() {
    let removed = "E,0,0,1,0\nP,0,0,0,0,0,0,0\nP,5,1,0,0,1,1,0,0,0\nP,2,0,0,0,1,0,0,1\n";
    assert_eq!(paper(removed), "P,0,0,0,0,0,0,0\nP,5,1,0,0,1,1,0,0,0\nP,2,0,0,0,1,0,0,0\nG,2,0,0\n");

    let kept = removed.replace("P,5,1,0", "P,5,1,1");
    assert_eq!(lines(&paper(&kept), 'G'), ["G,2,0,0", "G,1,0,1"]);
}

#[test]
fn a_sort_went_exactly_if_no_sink_reaches_it() {
    let mut removed = 0;
    for (name, family) in FAMILIES {
        for number in 0..3_000 {
            let bytes = sheet(family, SEED, number);
            let Ok(finished) = oracle::try_run(&bytes, oracle::LEAST_OUTPUT) else { continue };
            let text = String::from_utf8(finished.text()).unwrap();
            let reached = reached(&text);
            for (place, reached) in reached.iter().enumerate() {
                assert_eq!(finished.is_removed(place), !reached, "{name} {SEED} {number}: step {place}");
            }

            let edges = lines(&text, 'G').into_iter().filter(|line| {
                let consumer: usize = line.split(',').nth(1).unwrap().parse().unwrap();
                reached[consumer]
            });
            let paper = String::from_utf8(finished.paper()).unwrap();
            assert_eq!(lines(&paper, 'P'), lines(&text, 'P'));
            assert_eq!(lines(&paper, 'G'), edges.collect::<Vec<_>>());
            removed += finished.tally.removed;
        }
    }
    assert!(removed > 3_000, "{removed} sorts were removed");
}
