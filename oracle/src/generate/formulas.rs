//! Formulas made at random: valid ones, the same with a change or two, noise, and long ones.
use super::random::Random;
use crate::formula::LONGEST_FORMULA;

const OPERATORS: &[u8] = b"|&<>=+-*/";
/// All that a token begins with or a space is, and some that are none.
const SYMBOLS: &[u8] = b"aabcz0012569()()|&<>=+-*/    A\t\n";
const SIZES: [usize; 16] = [1, 2, 2, 3, 3, 4, 5, 6, 8, 12, 20, 40, 63, 64, 65, 80];
const NUMBERS: [usize; 12] = [0, 1, 9, 10, 99, 100, 199, 200, 249, 250, 254, 255];
/// What a number may not be, and a reader that counts by 8, 16, 32 or 64 bits takes for one.
const NO_NUMBERS: [&[u8]; 7] = [b"00", b"007", b"256", b"257", b"65537", b"4294967297", b"18446744073709551617"];

/// Formula number `number` of a seed.
pub fn formula(seed: u64, number: u64) -> Vec<u8> {
    let random = &mut Random::new(&[seed, number]);
    match random.weighted(&[50, 34, 14, 2]) {
        0 => valid(random),
        1 => {
            let mut text = valid(random);
            change(random, &mut text);
            text
        },
        2 => noise(random),
        _ => long(random),
    }
}

/// How a formula looks: its operators, and of 100 operands, parts and places between tokens how many are numbers, stand in
/// brackets and have a space.
struct Style {
    operators: Vec<u8>,
    numbers: usize,
    brackets: usize,
    spaces: usize,
}

impl Style {
    fn new(random: &mut Random) -> Self {
        let operators = match random.below(3) {
            0 => OPERATORS.to_vec(),
            _ => (0..random.between(2, 4)).map(|_| *random.pick(OPERATORS)).collect(),
        };
        let numbers = *random.pick(&[0, 10, 50, 90, 100]);
        let brackets = *random.pick(&[0, 0, 5, 20, 60]);
        let spaces = *random.pick(&[0, 0, 20, 50, 100, 100]);
        Style { operators, numbers, brackets, spaces }
    }
}

fn valid(random: &mut Random) -> Vec<u8> {
    let style = Style::new(random);
    let mut tokens = vec![];
    let operands = *random.pick(&SIZES);
    write(random, &style, operands, &mut tokens);

    let mut text = vec![];
    for (place, token) in tokens.iter().enumerate() {
        if place > 0 && random.chance(style.spaces) {
            text.push(b' ');
        }
        text.extend_from_slice(token);
    }
    text
}

/// The tokens of so many operands, with brackets around the whole or not.
fn write(random: &mut Random, style: &Style, operands: usize, tokens: &mut Vec<Vec<u8>>) {
    let mut brackets = 0;
    while brackets < 5 && random.chance(style.brackets) {
        brackets += 1;
    }

    tokens.extend(vec![b"(".to_vec(); brackets]);
    if operands > 1 {
        let left = random.between(1, operands - 1);
        write(random, style, left, tokens);
        tokens.push(vec![*random.pick(&style.operators)]);
        write(random, style, operands - left, tokens);
    } else {
        tokens.push(operand(random, style));
    }
    tokens.extend(vec![b")".to_vec(); brackets]);
}

fn operand(random: &mut Random, style: &Style) -> Vec<u8> {
    if !random.chance(style.numbers) {
        return vec![random.between(b'a'.into(), b'z'.into()) as u8];
    }
    let number = if random.chance(50) { *random.pick(&NUMBERS) } else { random.below(256) };
    number.to_string().into_bytes()
}

/// Once or twice a byte changed, put in, taken out, doubled, or put behind the last; or what is no number put in place of a byte.
fn change(random: &mut Random, text: &mut Vec<u8>) {
    for _ in 0..random.between(1, 2) {
        let byte = if random.chance(90) { *random.pick(SYMBOLS) } else { random.byte() };
        if text.is_empty() {
            text.push(byte);
        }
        let place = random.below(text.len());
        match random.weighted(&[20, 20, 20, 20, 10, 10]) {
            0 => text[place] = byte,
            1 => text.insert(place, byte),
            2 => text.insert(place, text[place]),
            3 => drop(text.remove(place)),
            4 => text.push(byte),
            _ => drop(text.splice(place..=place, random.pick(&NO_NUMBERS).iter().copied())),
        }
    }
}

fn noise(random: &mut Random) -> Vec<u8> {
    let length = random.below(24);
    let wild = *random.pick(&[0, 0, 5, 100]);
    (0..length).map(|_| if random.chance(wild) { random.byte() } else { *random.pick(SYMBOLS) }).collect()
}

/// Up to the greatest length and just over it: many operands or few, in brackets down to any depth, and now and then changed.
fn long(random: &mut Random) -> Vec<u8> {
    let length = random.between(LONGEST_FORMULA - 2, LONGEST_FORMULA + 2);
    let mut text = valid(random);
    if random.chance(40) {
        let end = *random.pick(&[400, 5_000, length - 1_000]);
        while text.len() < end {
            text.push(*random.pick(OPERATORS));
            text.extend(valid(random));
        }
    }
    if random.chance(50) {
        text.insert(0, *random.pick(OPERATORS));
        text.insert(0, b'x');
        bracket(&mut text, 2, length);
    } else {
        bracket(&mut text, 0, length);
    }
    if random.chance(30) {
        change(random, &mut text);
    }
    text
}

/// Puts what is behind the place into so many brackets that the text has the length, with one space if that is odd.
fn bracket(text: &mut Vec<u8>, place: usize, length: usize) {
    let missing = length.saturating_sub(text.len());
    if missing % 2 == 1 && missing > 1 {
        text.insert(place, b' ');
    }
    text.splice(place..place, vec![b'('; missing / 2]);
    text.extend(vec![b')'; missing / 2]);
}
