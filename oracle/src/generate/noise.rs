//! Bytes at random, and text with random damage.
use super::random::Random;
use super::valid;

pub fn noise(random: &mut Random) -> Vec<u8> {
    match random.below(6) {
        0 => {
            let length = random.below(60);
            (0..length).map(|_| random.byte()).collect()
        },
        1 => {
            let length = random.below(120);
            (0..length).map(|_| *random.pick(b"EP,,,,0011223456789\n\n")).collect()
        },
        2 => lines_of_numbers(random),
        _ => {
            let mut text = valid(random).text();
            for _ in 0..random.between(1, 4) {
                harm(random, &mut text);
            }
            text
        },
    }
}

/// Lines of the right form with numbers at random.
fn lines_of_numbers(random: &mut Random) -> Vec<u8> {
    let mut text = vec![];
    for _ in 0..random.below(8) {
        let (letter, least) = *random.pick(&[("E", 4), ("P", 7)]);
        text.extend_from_slice(letter.as_bytes());
        for _ in 0..random.between(least, least + 5) {
            let most = *random.pick(&[1, 1, 2, 8, 30, 300]);
            text.extend_from_slice(format!(",{}", random.below(most + 1)).as_bytes());
        }
        text.push(b'\n');
    }
    text
}

/// One change anywhere in the text.
pub fn harm(random: &mut Random, text: &mut Vec<u8>) {
    if text.is_empty() {
        text.push(random.byte());
        return;
    }

    // Digits changed for digits leave the form alone.
    let digits: Vec<usize> = (0..text.len()).filter(|&place| text[place].is_ascii_digit()).collect();
    if !digits.is_empty() && random.chance(60) {
        text[*random.pick(&digits)] = *random.pick(b"0123456789");
        return;
    }

    let place = random.below(text.len());
    let byte = if random.chance(70) { *random.pick(b"EP,0123456789\n\r -+.") } else { random.byte() };
    match random.below(5) {
        0 => text[place] = byte,
        1 => text.insert(place, byte),
        2 => {
            text.remove(place);
        },
        3 => text.truncate(place),
        _ => {
            // A line once more, somewhere else.
            let lines: Vec<Vec<u8>> = text.split_inclusive(|&byte| byte == b'\n').map(<[u8]>::to_vec).collect();
            let line = random.pick(&lines).clone();
            let before = random.below(lines.len() + 1);
            *text = [lines[..before].concat(), line, lines[before..].concat()].concat();
        },
    }
}
