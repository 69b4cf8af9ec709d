//! The generator: what each family brings, and what holds of every finished sheet.
use oracle::generate::share::Shares;
use oracle::generate::{FAMILIES, Family, sheet};
use oracle::kinds::step;
use oracle::tables::{EXPR_ROWS, step_row};

use crate::lines;

const SEED: u64 = 20;

fn shares(family: Family, count: u64) -> Shares {
    let mut shares = Shares::default();
    for number in 0..count {
        shares.count(&sheet(family, SEED, number));
    }
    shares
}

#[test]
fn valid_sheets_bring_every_kind_and_option() {
    let shares = shares(Family::Valid, 6_000);

    for (kind, row) in (0..).zip(&EXPR_ROWS) {
        for option in 0..=row.option {
            assert!(shares.has_expr(kind, option), "E kind {kind} option {option}");
        }
    }
    for kind in 0..step::COUNT {
        for (option, limit) in step_row(kind, 0).unwrap().options.into_iter().enumerate() {
            // Any number of columns and any id comes sooner or later; a few are enough here.
            let limit = if limit == 255 { 0 } else { limit };
            for value in 0..=limit {
                assert!(shares.has_step(kind, option, value), "P kind {kind} option {option} value {value}");
            }
        }
    }
}

#[test]
fn most_sheets_without_a_fault_are_accepted() {
    for (family, least) in [(Family::Valid, 85.0), (Family::Small, 85.0), (Family::Deep, 80.0), (Family::Limit, 50.0)] {
        let shares = shares(family, 1_000);
        assert!(shares.of_answer(0) > least, "{family:?}\n{}", shares.text());
    }
}

#[test]
fn near_sheets_bring_every_refusal() {
    let shares = shares(Family::Near, 2_000);
    for number in 2..=11 {
        assert!(shares.of_answer(number) > 3.0, "R,{number}\n{}", shares.text());
    }
}

#[test]
fn uses_bring_what_near_sheets_seldom_do() {
    let shares = shares(Family::Uses, 2_000);
    for (number, least) in [(8, 25.0), (12, 25.0), (13, 5.0)] {
        assert!(shares.of_answer(number) > least, "R,{number}\n{}", shares.text());
    }
}

#[test]
fn visits_follow_from_sinks_edges_and_removed_sorts() {
    for (_, family) in FAMILIES {
        for number in 0..1_000 {
            let Ok(finished) = oracle::finish(&sheet(family, SEED, number), oracle::LEAST_OUTPUT) else {
                continue;
            };
            assert!(finished.len() <= 14_080);

            let finished = String::from_utf8(finished).unwrap();
            let sinks = lines(&finished, 'P').iter().filter(|line| line.starts_with("P,2,")).count();
            let edges = lines(&finished, 'G').len();
            let tally: Vec<usize> = lines(&finished, 'T')[0][2..].split(',').map(|n| n.parse().unwrap()).collect();
            assert_eq!(tally[1], 2 * (sinks + edges) - tally[0], "{finished}");
        }
    }
}

#[test]
fn a_sheet_follows_from_family_seed_and_number() {
    for (_, family) in FAMILIES {
        assert_eq!(sheet(family, 1, 2), sheet(family, 1, 2));
        assert_ne!(sheet(family, 1, 2), sheet(family, 1, 3));
        assert_ne!(sheet(family, 1, 2), sheet(family, 2, 2));
    }
}
