//! Papers to a sheet: the right one, made from the Rust's own graph, and others.
use simplify_ordering::Verdict;

use crate::asked::{Expected, LENT};

/// What stands for the finished sheet and the right paper of a sheet that is refused: lines that might be a paper.
const NONE_FINISHED: &[u8] = b"P,0,0,0,0,0,0,0\nP,2,0,0,0,1,0,0,0\nG,1,0,0\n";
const SORT: usize = 5;

/// The lines that begin with the letter.
fn lines(text: &[u8], letter: u8) -> impl Iterator<Item = &[u8]> {
    text.split_inclusive(|&byte| byte == b'\n').filter(move |line| line.first() == Some(&letter))
}

fn block(text: &[u8], letter: u8) -> Vec<u8> {
    lines(text, letter).flatten().copied().collect()
}

/// The numbers of a line.
fn numbers(line: &[u8]) -> Vec<usize> {
    let text = String::from_utf8_lossy(line);
    text.trim_end().split(',').skip(1).filter_map(|number| number.parse().ok()).collect()
}

/// The sheet as sent, as finished by the Rust, and its right paper.
pub struct Papers<'a> {
    sheet: &'a [u8],
    finished: &'a [u8],
    right: &'a [u8],
    removed: u32,
    steps: Vec<u8>,
    edges: Vec<u8>,
}

impl<'a> Papers<'a> {
    pub fn new(sheet: &'a [u8], expected: &'a Expected) -> Self {
        let (finished, right, removed) =
            expected.as_ref().map_or((NONE_FINISHED, NONE_FINISHED, 0), |f| (&*f.text, &*f.paper, f.removed));
        Papers { sheet, finished, right, removed, steps: block(right, b'P'), edges: block(right, b'G') }
    }

    /// The right paper, that paper with one byte changed, and one made in another way; the number chooses.
    pub fn three(&self, number: u64) -> [Vec<u8>; 3] {
        [self.right.to_vec(), self.one_byte_changed(number), self.altered(number)]
    }

    pub fn verdict(&self, paper: &[u8]) -> Verdict {
        if paper == self.right { Verdict::Right } else { Verdict::Wrong }
    }

    fn one_byte_changed(&self, number: u64) -> Vec<u8> {
        let mut other = self.right.to_vec();
        let place = (number / 8) as usize % other.len();
        other[place] ^= 1 << (number % 8);
        other
    }

    /// Those from 11 on may be the right paper all the same: of a sheet without an E line, whose steps stay as they are, or where no
    /// sort goes or stays.
    fn altered(&self, number: u64) -> Vec<u8> {
        let Papers { sheet, finished, steps, edges, .. } = self;
        let mut right = self.right.to_vec();
        let place = (number / 17) as usize % right.len();
        match number % 17 {
            0 => right.truncate(place),
            1 => right.insert(place, b' '),
            2 => right.insert(0, b'\n'),
            3 => right.resize(LENT * 2, b'G'),
            4 => {
                right.remove(place);
            },
            5 => right.extend_from_slice(edges),
            6 => right.extend_from_slice(&block(finished, b'T')),
            7 => return edges.clone(),
            8 => return steps.clone(),
            9 => return [&**edges, steps].concat(),
            10 => return finished.to_vec(),
            11 => return [block(finished, b'E'), right].concat(),
            12 => return [&*block(sheet, b'P'), edges].concat(),
            13 => return [&**steps, &*block(finished, b'G')].concat(),
            14 => return [&*self.steps_left(), edges].concat(),
            15 => return [&**steps, &*self.edges_but(|line| self.led_from_a_removed(line))].concat(),
            _ => return [&**steps, &*self.edges_but(|line| self.is_unordered_into_a_sort(line))].concat(),
        }
        right
    }

    fn is_removed(&self, step: usize) -> bool {
        self.removed >> step & 1 == 1
    }

    /// The P lines, a removed sort's left out.
    fn steps_left(&self) -> Vec<u8> {
        let left = lines(&self.steps, b'P').enumerate().filter(|(step, _)| !self.is_removed(*step));
        left.flat_map(|(_, line)| line).copied().collect()
    }

    /// The G lines of the right paper, some more left out.
    fn edges_but(&self, left_out: impl Fn(&[u8]) -> bool) -> Vec<u8> {
        lines(&self.edges, b'G').filter(|line| !left_out(line)).flatten().copied().collect()
    }

    /// Did the edge leave a removed sort, on the sheet as it was sent?
    fn led_from_a_removed(&self, line: &[u8]) -> bool {
        let [consumer, slot, _] = numbers(line)[..] else { return false };
        let step = lines(self.sheet, b'P').nth(consumer).map(numbers).unwrap_or_default();
        step.get(7 + slot).is_some_and(|&input| self.is_removed(input))
    }

    fn is_unordered_into_a_sort(&self, line: &[u8]) -> bool {
        let [consumer, _, order] = numbers(line)[..] else { return false };
        let step = lines(&self.steps, b'P').nth(consumer).map(numbers).unwrap_or_default();
        order == 0 && step.first() == Some(&SORT)
    }
}
