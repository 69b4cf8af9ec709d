//! Arrays put together and taken apart.
use std::array::from_fn;

pub fn array_concat<T, const LEFT: usize, const RIGHT: usize, const TOTAL: usize>(
    left: [T; LEFT],
    right: [T; RIGHT],
) -> [T; TOTAL] {
    const { assert!(LEFT + RIGHT == TOTAL) };

    let mut all = left.into_iter().chain(right);
    from_fn(|_| all.next().unwrap())
}

pub fn array_split<T, const TOTAL: usize, const LEFT: usize, const RIGHT: usize>(
    array: [T; TOTAL],
) -> ([T; LEFT], [T; RIGHT]) {
    const { assert!(LEFT + RIGHT == TOTAL) };

    let mut all = array.into_iter();
    let left = from_fn(|_| all.next().unwrap());
    (left, from_fn(|_| all.next().unwrap()))
}
