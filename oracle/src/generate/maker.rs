//! A sheet in the making, and the last touches: new indices for its lines.
use super::random::Random;
use crate::sheet::Sheet;

/// What a plan is to look like.
#[derive(Clone, Copy)]
pub struct Shape {
    pub steps: usize,
    pub largest_tree: usize,
    /// In so many of 100 lists of keys of a Join or a partitioned Sink, the keys are to be elementwise.
    pub careful: usize,
}

pub struct Maker<'a> {
    pub random: &'a mut Random,
    pub shape: Shape,
    pub sheet: Sheet,
    /// Steps that nothing names yet, Sinks left out.
    pub open: Vec<u8>,
    pub caches: Vec<u8>,
    /// How many E lines and agg entries may still come.
    pub room: usize,
}

impl<'a> Maker<'a> {
    pub fn new(random: &'a mut Random, shape: Shape) -> Self {
        Maker { random, shape, sheet: Sheet::default(), open: vec![], caches: vec![], room: crate::reading::MOST_EXPRS }
    }

    /// Puts the lines of each letter in another order, if it so happens; a line still comes after those it names.
    pub fn shuffled(mut self) -> Sheet {
        if self.random.chance(35) {
            let needs: Vec<Vec<u8>> = self.sheet.exprs.iter().map(|line| line.children.clone()).collect();
            let places = new_places(self.random, &needs);
            self.sheet.exprs = moved(self.sheet.exprs, &places);
            for line in &mut self.sheet.exprs {
                rename(&mut line.children, &places);
            }
            for line in &mut self.sheet.steps {
                rename(&mut line.exprs, &places);
                rename(&mut line.more_exprs, &places);
            }
        }

        if self.random.chance(35) {
            let needs: Vec<Vec<u8>> = self.sheet.steps.iter().map(|line| line.inputs.clone()).collect();
            let places = new_places(self.random, &needs);
            self.sheet.steps = moved(self.sheet.steps, &places);
            for line in &mut self.sheet.steps {
                rename(&mut line.inputs, &places);
            }
        }

        self.sheet
    }
}

/// For each line its new place: a random order in which every line comes after those it needs.
fn new_places(random: &mut Random, needs: &[Vec<u8>]) -> Vec<u8> {
    let mut places: Vec<Option<u8>> = vec![None; needs.len()];

    for place in 0..needs.len() {
        let ready: Vec<usize> = (0..needs.len())
            .filter(|&line| places[line].is_none())
            .filter(|&line| needs[line].iter().all(|&need| places[usize::from(need)].is_some()))
            .collect();
        places[*random.pick(&ready)] = Some(place as u8);
    }

    places.into_iter().map(Option::unwrap).collect()
}

fn moved<T>(lines: Vec<T>, places: &[u8]) -> Vec<T> {
    let mut lines: Vec<(u8, T)> = places.iter().copied().zip(lines).collect();
    lines.sort_by_key(|(place, _)| *place);
    lines.into_iter().map(|(_, line)| line).collect()
}

fn rename(references: &mut [u8], places: &[u8]) {
    for reference in references {
        *reference = places[usize::from(*reference)];
    }
}
