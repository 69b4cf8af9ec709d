//! Every string over small alphabets, every byte anywhere in typical formulas, and every chain of a few operands.
use std::iter::once;

/// Alphabets, each with the most symbols of a string. Three have a byte that no token holds; together they have every operator.
const ALPHABETS: [(&[u8], u32); 4] =
    [(b"0123456789", 5), (b"a025()|<+* \n", 6), (b"z19()&>=-/ \xE1", 6), (b"a&-() \t", 8)];
/// So many of all the bytes that there are.
const BYTES: u32 = 3;
const TYPICAL: [&[u8]; 3] = [b"a + b * 25 > c", b"(a-255)/( 10|x )", b"0 & z=(1<20)"];
const OPERATORS: &[u8] = b"|&<>=+-*/";
const OPERANDS: &[u8] = b"a1";
/// The operands of the longest chain.
const LONGEST_CHAIN: usize = 5;

pub fn every() -> impl Iterator<Item = Vec<u8>> {
    let bytes = ((0..=255).collect(), BYTES);
    let alphabets = ALPHABETS.map(|(symbols, most)| (symbols.to_vec(), most));
    let strings = once(bytes).chain(alphabets).flat_map(|(symbols, most)| strings(symbols, most));
    strings.chain(TYPICAL.into_iter().flat_map(changed)).chain((1..=LONGEST_CHAIN).flat_map(chains))
}

/// Every string of the symbols, of no byte, then of one, up to the most.
fn strings(symbols: Vec<u8>, most: u32) -> impl Iterator<Item = Vec<u8>> {
    (0..=most).flat_map(move |length| {
        let symbols = symbols.clone();
        (0..symbols.len().pow(length)).map(move |number| {
            let mut choices = Choices(number);
            (0..length).map(|_| choices.among(&symbols)).collect()
        })
    })
}

/// The formula with every byte before, behind or in place of each of its bytes.
fn changed(formula: &[u8]) -> impl Iterator<Item = Vec<u8>> {
    let places = (0..=formula.len()).flat_map(|place| [place..place, place..formula.len().min(place + 1)]);
    places.flat_map(move |place| {
        (0..=255).map(move |byte| [&formula[..place.start], &[byte], &formula[place.end..]].concat())
    })
}

/// Every chain of so many operands, without brackets and with one pair around some of them.
fn chains(operands: usize) -> impl Iterator<Item = Vec<u8>> {
    let pairs = (0..operands).flat_map(move |first| (first..operands).map(move |last| Some((first, last))));
    let count = OPERANDS.len().pow(operands as u32) * OPERATORS.len().pow(operands as u32 - 1);
    once(None).chain(pairs).flat_map(move |pair| (0..count).map(move |number| chain(operands, pair, number)))
}

fn chain(operands: usize, pair: Option<(usize, usize)>, number: usize) -> Vec<u8> {
    let mut choices = Choices(number);
    let mut text = vec![];
    for place in 0..operands {
        if place > 0 {
            text.push(choices.among(OPERATORS));
        }
        if pair.is_some_and(|(first, _)| first == place) {
            text.push(b'(');
        }
        text.push(choices.among(OPERANDS));
        if pair.is_some_and(|(_, last)| last == place) {
            text.push(b')');
        }
    }
    text
}

/// What is still to be chosen, as one number.
struct Choices(usize);

impl Choices {
    fn among(&mut self, symbols: &[u8]) -> u8 {
        let choice = self.0 % symbols.len();
        self.0 /= symbols.len();
        symbols[choice]
    }
}
