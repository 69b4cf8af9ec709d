//! CPU time: work takes some, waiting takes none.
use std::thread::sleep;
use std::time::Duration;

use oracle::cpu_time::{NO_ROUND, least, of};

const WAIT: Duration = Duration::from_millis(100);

#[test]
fn waiting_is_not_counted() {
    assert!(of(|| sleep(WAIT)) < WAIT / 2);
}

#[test]
fn work_is_counted() {
    let work = || (0..1_000_000_u64).map(|n| n.wrapping_mul(n).rotate_left(7)).fold(0, u64::wrapping_add);
    assert!(of(work) > Duration::ZERO);
}

#[test]
fn the_least_is_taken_of_each_side() {
    let round = |rust, port| [Duration::from_nanos(rust), Duration::from_nanos(port)];
    assert_eq!(least(NO_ROUND, round(5, 7)), round(5, 7));
    assert_eq!(least(round(5, 7), round(6, 3)), round(5, 3));
}
