//! A valid sheet with one or two faults put in, each aimed at a refusal.
use super::noise::harm;
use super::random::Random;
use super::valid;
use crate::LONGEST_SHEET;
use crate::kinds::expr::{FUNCTION, STRUCT_EVAL, STRUCT_FIELD};
use crate::kinds::step::{self, CACHE, GROUP_BY, JOIN, SINK};
use crate::reading::{MOST_EXPRS, MOST_STEPS};
use crate::sheet::{Sheet, StepLine, write_line};
use crate::tables::{EXPR_ROWS, step_row};

/// A line whose numbers may be out of all bounds.
#[derive(Clone)]
struct Line {
    letter: u8,
    numbers: Vec<u16>,
}

pub fn near(random: &mut Random) -> Vec<u8> {
    let aims: Vec<usize> = (0..random.between(1, 2)).map(|_| random.between(2, 11)).collect();
    let mut sheet = base(random, &aims);

    for &aim in &aims {
        match aim {
            7 => bad_reference(random, &mut sheet),
            8 => bad_use(random, &mut sheet),
            9 => stray_field(random, &mut sheet),
            10 | 11 => bad_key(random, &mut sheet, if aim == 10 { JOIN } else { SINK }),
            _ => {},
        }
    }

    let mut lines = lines_of(&sheet);
    for &aim in &aims {
        match aim {
            4 => outside_the_table(random, &mut lines),
            5 => too_many(random, &mut lines),
            6 => lines.retain(|line| line.letter == b'E'),
            _ => {},
        }
    }

    let mut text = text_of(&lines);
    for &aim in &aims {
        match aim {
            2 => lengthen(random, &mut text),
            3 => bad_form(random, &mut text),
            _ => {},
        }
    }
    text
}

/// A valid sheet that has what the aims need.
fn base(random: &mut Random, aims: &[usize]) -> Sheet {
    loop {
        let sheet = valid(random);
        let has_keys = |kind: u8| sheet.steps.iter().any(|line| line.kind == kind && line.all_exprs().next().is_some());
        let fits = aims.iter().all(|&aim| match aim {
            9 => !sheet.exprs.is_empty(),
            10 => has_keys(JOIN),
            11 => has_keys(SINK),
            _ => true,
        });
        if fits {
            return sheet;
        }
    }
}

fn lines_of(sheet: &Sheet) -> Vec<Line> {
    let text = String::from_utf8(sheet.text()).unwrap();
    text.lines()
        .map(|line| Line {
            letter: line.as_bytes()[0],
            numbers: line[2..].split(',').map(|number| number.parse().unwrap()).collect(),
        })
        .collect()
}

fn text_of(lines: &[Line]) -> Vec<u8> {
    let mut text = vec![];
    for line in lines {
        write_line(&mut text, line.letter, line.numbers.iter().copied());
    }
    text
}

fn bad_reference(random: &mut Random, sheet: &mut Sheet) {
    let steps = sheet.steps.len();
    let exprs = sheet.exprs.len();

    if exprs > 0 && random.chance(50) {
        let line = random.below(exprs);
        let children = &mut sheet.exprs[line].children;
        if !children.is_empty() {
            let child = random.below(children.len());
            children[child] = *random.pick(&[line, line, line + 1, exprs - 1, exprs, 255]) as u8;
            return;
        }
    }

    let line = random.below(steps);
    let sinks: Vec<usize> = (0..line).filter(|&step| sheet.steps[step].kind == SINK).collect();
    let step = &mut sheet.steps[line];
    if !step.exprs.is_empty() && random.chance(40) {
        step.exprs[0] = *random.pick(&[exprs, exprs + 1, 255]) as u8;
    } else if !step.inputs.is_empty() {
        let input = random.below(step.inputs.len());
        step.inputs[input] = if !sinks.is_empty() && random.chance(50) {
            *random.pick(&sinks) as u8
        } else {
            *random.pick(&[line, line + 1, steps - 1, steps, 255]) as u8
        };
    }
}

fn bad_use(random: &mut Random, sheet: &mut Sheet) {
    match random.below(5) {
        0 if !sheet.exprs.is_empty() => {
            let unused = random.pick(&sheet.exprs).clone();
            sheet.exprs.push(unused);
        },
        1 => {
            let caches: Vec<usize> = (0..sheet.steps.len()).filter(|&step| sheet.steps[step].kind == CACHE).collect();
            if let [first, .., last] = caches[..] {
                sheet.steps[last].a = sheet.steps[first].a;
            }
        },
        2 => {
            // A SimpleProjection in place of the last Sink is named by none.
            if let Some(sink) = sheet.steps.iter_mut().rfind(|line| line.kind == SINK) {
                let inputs = std::mem::take(&mut sink.inputs);
                *sink = StepLine { kind: step::SIMPLE_PROJECTION, inputs, ..StepLine::default() };
            }
        },
        3 if sheet.exprs.len() > 1 => {
            let line = random.between(1, sheet.exprs.len() - 1);
            if let Some(child) = sheet.exprs[line].children.first_mut() {
                *child = random.below(line) as u8;
            }
        },
        _ => {
            let line = random.between(1, sheet.steps.len() - 1);
            if let Some(input) = sheet.steps[line].inputs.first_mut() {
                *input = random.below(line) as u8;
            }
        },
    }
}

fn stray_field(random: &mut Random, sheet: &mut Sheet) {
    let evals: Vec<usize> = (0..sheet.exprs.len()).filter(|&line| sheet.exprs[line].kind == STRUCT_EVAL).collect();
    if !evals.is_empty() && random.chance(50) {
        sheet.exprs[*random.pick(&evals)].kind = FUNCTION;
        return;
    }
    let leaves: Vec<usize> = (0..sheet.exprs.len()).filter(|&line| sheet.exprs[line].children.is_empty()).collect();
    let leaf = &mut sheet.exprs[*random.pick(&leaves)];
    (leaf.kind, leaf.option) = (STRUCT_FIELD, 0);
}

/// A key becomes a Function that observes order and makes one.
fn bad_key(random: &mut Random, sheet: &mut Sheet, kind: u8) {
    let steps = sheet.steps.iter().filter(|line| line.kind == kind);
    let keys: Vec<u8> = steps.flat_map(|line| line.all_exprs()).collect();
    if keys.is_empty() {
        return;
    }
    // An earlier fault may have made the key a line that is not there.
    if let Some(key) = sheet.exprs.get_mut(usize::from(*random.pick(&keys))) {
        (key.kind, key.option) = (FUNCTION, *random.pick(&[0, 0, 2, 8, 40]));
    }
}

fn outside_the_table(random: &mut Random, lines: &mut [Line]) {
    if lines.is_empty() {
        return;
    }
    let line = random.below(lines.len());
    let Line { letter, numbers } = &mut lines[line];

    if *letter == b'E' {
        let Some(row) = EXPR_ROWS.get(usize::from(numbers[0])) else {
            return;
        };
        match random.below(6) {
            0 => numbers[0] = *random.pick(&[25, 26, 255]),
            1 => numbers[1] = *random.pick(&[2, 255]),
            2 => numbers[2] = *random.pick(&[2, 255]),
            3 => numbers[3] = u16::from(row.option) + 1,
            4 => numbers.resize(numbers.len().max(4 + row.most + 1), 0),
            _ => numbers.truncate(random.between(4, numbers.len())),
        }
        return;
    }

    let Some(row) = step_row(numbers[0] as u8, numbers[2] as u8) else {
        return;
    };
    match random.below(6) {
        0 => numbers[0] = *random.pick(&[19, 20, 255]),
        1 => {
            let option = random.below(3);
            numbers[option + 1] = (u16::from(row.options[option]) + 1).min(255);
        },
        2 => {
            let count = random.below(3);
            numbers[count + 4] = *random.pick(&[numbers[count + 4] + 1, 9, 255]);
        },
        3 => {
            let count = random.below(3);
            numbers[count + 4] = numbers[count + 4].saturating_sub(1);
        },
        4 => numbers.push(0),
        _ => numbers.truncate(random.between(7, numbers.len())),
    }
}

fn too_many(random: &mut Random, lines: &mut Vec<Line>) {
    let first_step = lines.iter().position(|line| line.letter == b'P').unwrap_or(lines.len());

    match random.below(3) {
        0 => {
            let total = *random.pick(&[MOST_EXPRS, MOST_EXPRS + 1, MOST_EXPRS + 2]);
            let column = Line { letter: b'E', numbers: vec![0, 0, 1, 0] };
            let missing = total.saturating_sub(first_step);
            lines.splice(first_step..first_step, vec![column; missing]);
        },
        1 => {
            let total = first_step + *random.pick(&[MOST_STEPS, MOST_STEPS + 1, MOST_STEPS + 2]);
            let scan = Line { letter: b'P', numbers: vec![0; 7] };
            let missing = total.saturating_sub(lines.len());
            lines.extend(vec![scan; missing]);
        },
        _ => {
            // Aggs beyond the room, in a GroupBy whose references don't matter yet.
            let group_by =
                Line { letter: b'P', numbers: vec![u16::from(GROUP_BY), 0, 0, 0, 1, 0, 8, 0, 0, 0, 0, 0, 0, 0, 0, 0] };
            let missing = (MOST_EXPRS + 8).saturating_sub(first_step) / 8;
            lines.extend(vec![group_by; missing]);
        },
    }
}

fn lengthen(random: &mut Random, text: &mut Vec<u8>) {
    let length = *random.pick(&[LONGEST_SHEET, LONGEST_SHEET + 1, LONGEST_SHEET + 1, LONGEST_SHEET + 50]);
    let line = if text.is_empty() { b"\n".to_vec() } else { text.clone() };
    while text.len() < length {
        text.extend_from_slice(&line);
    }
    text.truncate(length);
}

/// Put after a comma, these take a line out of its form, nearly always.
const AFTER_COMMA: [&str; 12] = ["0", "25", "-", " ", "\t", ",", "256,", "999,", "+", "\r", "00,", "\n"];

/// Put after the last line, these are not of the form.
const LINES: [&str; 6] = ["E,0,0,1,0\n", "\n", "P,0,0,0,0,0,0\n", "G,0,0,0\n", "e,0,0,1,0\n", "P"];

fn bad_form(random: &mut Random, text: &mut Vec<u8>) {
    if text.is_empty() || random.chance(40) {
        harm(random, text);
        return;
    }

    let commas: Vec<usize> = (0..text.len()).filter(|&place| text[place] == b',').collect();
    match random.below(5) {
        0 => {
            text.pop();
        },
        1 => text.extend_from_slice(random.pick(&LINES).as_bytes()),
        _ if commas.is_empty() => {},
        _ => {
            let after = random.pick(&commas) + 1;
            text.splice(after..after, random.pick(&AFTER_COMMA).bytes());
        },
    }
}
