//! Plans: steps laid one upon the other until all ends in Sinks.
use super::maker::Maker;
use super::trees::{ANYWHERE, KEY, Place};
use crate::kinds::expr;
use crate::kinds::step::{self, *};
use crate::sheet::{Sheet, StepLine};

/// How often each kind comes.
const WEIGHTS: [usize; step::COUNT as usize] = [
    16, // 0 Scan
    2,  // 1 UnoptimizedDispatch
    3,  // 2 Sink
    7,  // 3 Select
    7,  // 4 HStack
    16, // 5 Sort
    4,  // 6 Filter
    7,  // 7 GroupBy
    6,  // 8 Distinct
    15, // 9 Join
    6,  // 10 Gather
    7,  // 11 Union
    8,  // 12 MergeSorted
    5,  // 13 MapFunction
    3,  // 14 HConcat
    3,  // 15 Slice
    3,  // 16 ExtContext
    4,  // 17 SimpleProjection
    9,  // 18 Cache
];

impl Maker<'_> {
    /// A plan of the shape's number of steps, or a few less.
    pub fn plan(mut self) -> Sheet {
        self.build();
        self.shuffled()
    }

    /// A plan of just that number of steps, and of E lines with agg entries.
    pub fn full_plan(mut self, exprs: usize) -> Sheet {
        self.room = exprs;
        self.add_step(SCAN, vec![]);
        let input = self.open.remove(0);
        self.add_step(SELECT, vec![input]);
        self.build();

        // What is missing is wrapped around entries.
        while self.room > 0 {
            let steps = 0..self.sheet.steps.len();
            let with_exprs: Vec<usize> = steps.filter(|&step| !self.sheet.steps[step].exprs.is_empty()).collect();
            let step = *self.random.pick(&with_exprs);
            let entry = self.random.below(self.sheet.steps[step].exprs.len());
            let wrapped = self.sheet.steps[step].exprs[entry];
            let (kind, option) =
                *self.random.pick(&[(expr::CAST, 0), (expr::FUNCTION, 3), (expr::FUNCTION, 36), (expr::MIN, 0)]);
            self.sheet.steps[step].exprs[entry] = self.add_expr(kind, option, vec![wrapped]);
        }

        self.shuffled()
    }

    fn build(&mut self) {
        while self.steps_when_closed() < self.shape.steps {
            let Some((kind, inputs)) = self.next_step() else {
                break;
            };
            self.add_step(kind, inputs);
        }

        while !self.open.is_empty() {
            let input = self.take_open();
            self.add_step(SINK, vec![input]);
        }
    }

    fn steps_when_closed(&self) -> usize {
        self.sheet.steps.len() + self.open.len()
    }

    /// A kind and inputs for it with which the plan does not grow too long.
    fn next_step(&mut self) -> Option<(u8, Vec<u8>)> {
        let room_for_two = self.steps_when_closed() + 2 <= self.shape.steps;

        if self.open.is_empty() && self.caches.is_empty() {
            return room_for_two.then(|| (SCAN, vec![]));
        }
        if !room_for_two && self.open.is_empty() {
            let input = *self.random.pick(&self.caches);
            return Some((SINK, vec![input]));
        }

        loop {
            let kind = self.random.weighted(&WEIGHTS) as u8;
            let inputs = match kind {
                SCAN if room_for_two => vec![],
                SCAN => continue,
                SINK if self.open.len() > 1 || !self.caches.is_empty() => vec![self.take_input()],
                SINK => continue,
                JOIN | GATHER | MERGE_SORTED if self.open.len() > 1 || !self.caches.is_empty() => self.take_inputs(2),
                JOIN | GATHER | MERGE_SORTED => continue,
                UNOPTIMIZED_DISPATCH | UNION | HCONCAT | EXT_CONTEXT => {
                    let count = *self.random.pick(&[0, 1, 2, 2, 3, 3, 4, 5, 8]);
                    let least = usize::from(kind == EXT_CONTEXT || !room_for_two);
                    self.take_inputs(count.max(least))
                },
                _ => vec![if room_for_two { self.take_input() } else { self.take_open() }],
            };

            return Some((kind, inputs));
        }
    }

    fn take_open(&mut self) -> u8 {
        // The newest more often than not: that makes chains.
        let last = self.open.len() - 1;
        let place = if self.random.chance(60) { last } else { self.random.below(last + 1) };
        self.open.remove(place)
    }

    fn take_cache(&mut self) -> u8 {
        let cache = *self.random.pick(&self.caches);
        self.open.retain(|&step| step != cache);
        cache
    }

    fn take_input(&mut self) -> u8 {
        if !self.caches.is_empty() && (self.open.is_empty() || self.random.chance(25)) {
            self.take_cache()
        } else {
            self.take_open()
        }
    }

    /// The first from the open ones if there are any, so that they don't pile up; at times one cache again and again.
    /// Fewer than asked for come if no more are open and there is no cache.
    fn take_inputs(&mut self, count: usize) -> Vec<u8> {
        if count > 1 && !self.caches.is_empty() && self.open.len() < 2 && self.random.chance(50) {
            let cache = self.take_cache();
            let mut inputs = vec![cache; count];
            if !self.open.is_empty() {
                inputs[0] = self.take_open();
            }
            return inputs;
        }

        let mut inputs = vec![];
        while inputs.len() < count && (!self.open.is_empty() || !self.caches.is_empty()) {
            let first = inputs.is_empty() && !self.open.is_empty();
            inputs.push(if first { self.take_open() } else { self.take_input() });
        }
        let shift = self.random.below(inputs.len().max(1));
        inputs.rotate_left(shift);
        inputs
    }

    pub fn add_step(&mut self, kind: u8, inputs: Vec<u8>) -> u8 {
        let mut line = StepLine { kind, inputs, ..StepLine::default() };
        self.choose_options(&mut line);
        self.choose_exprs(&mut line);

        self.sheet.steps.push(line);
        let index = (self.sheet.steps.len() - 1) as u8;
        match kind {
            SINK => {},
            CACHE => {
                self.open.push(index);
                self.caches.push(index);
            },
            _ => self.open.push(index),
        }
        index
    }

    fn choose_options(&mut self, line: &mut StepLine) {
        let random = &mut *self.random;
        let (a, b, c) = match line.kind {
            SINK => (random.below(2), usize::from(random.chance(30)), 0),
            SORT => (random.below(2), usize::from(random.chance(20)), 0),
            GROUP_BY => (random.below(2), if random.chance(60) { 0 } else { random.below(8) }, 0),
            DISTINCT => (random.below(2), usize::from(random.chance(30)), random.below(4)),
            JOIN => (random.below(4), random.below(5), 0),
            UNION => (random.below(2), usize::from(random.chance(35)), 0),
            MERGE_SORTED => (random.below(2), 0, 0),
            MAP_FUNCTION => (random.below(8), 0, 0),
            CACHE => (usize::from(self.free_id()), 0, 0),
            _ => (0, 0, 0),
        };
        (line.a, line.b, line.c) = (a as u8, b as u8, c as u8);
    }

    fn free_id(&mut self) -> u8 {
        loop {
            let id = self.random.byte();
            if self.caches.iter().all(|&cache| self.sheet.steps[usize::from(cache)].a != id) {
                return id;
            }
        }
    }

    fn choose_exprs(&mut self, line: &mut StepLine) {
        match line.kind {
            SINK if line.b == 1 => line.exprs = self.key_list(),
            SELECT | SORT => line.exprs = self.list(ANYWHERE),
            HSTACK => {
                line.exprs = self.list(ANYWHERE);
                let replaced = line.exprs.len();
                let columns = [replaced, replaced, replaced + 1, replaced + 3, self.random.below(256)];
                line.a = *self.random.pick(&columns) as u8;
            },
            FILTER => {
                // A Filter has its one expression even if the sheet is full; then the step is another.
                if self.room == 0 {
                    line.kind = SELECT;
                } else {
                    let size = self.random.between(1, self.shape.largest_tree.min(self.room));
                    line.exprs = vec![self.tree(size, ANYWHERE)];
                }
            },
            GROUP_BY => {
                line.exprs = self.list(ANYWHERE);
                line.more_exprs = self.agg_list();
            },
            JOIN => {
                line.exprs = self.key_list();
                line.more_exprs = self.key_list();
            },
            _ => {},
        }
    }

    fn list_length(&mut self) -> usize {
        const WEIGHTS: [usize; 9] = [6, 40, 24, 14, 6, 4, 2, 2, 2];
        self.random.weighted(&WEIGHTS)
    }

    fn list(&mut self, place: Place) -> Vec<u8> {
        let mut list = vec![];
        for _ in 0..self.list_length() {
            if self.room == 0 {
                break;
            }
            let size = self.random.between(1, self.shape.largest_tree.min(self.room));
            list.push(self.tree(size, place));
        }
        list
    }

    fn key_list(&mut self) -> Vec<u8> {
        let place = if self.random.chance(self.shape.careful) { KEY } else { ANYWHERE };
        self.list(place)
    }

    /// Aggs, half of them no scalars; each takes room for its Implode.
    fn agg_list(&mut self) -> Vec<u8> {
        let mut list = vec![];
        for _ in 0..self.list_length() {
            if self.room < 2 {
                break;
            }
            let size = self.random.between(1, self.shape.largest_tree.min(self.room - 1));
            let agg = self.tree(size, ANYWHERE);
            if self.random.chance(40) {
                self.sheet.exprs[usize::from(agg)].scalar = 0;
            }
            self.room -= 1;
            list.push(agg);
        }
        list
    }
}
