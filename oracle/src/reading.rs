//! From bytes to lines: the line's form, its table and the room for it (3, 4, 5), line by line, then 6.
use crate::kinds::step;
use crate::refusals::{FORM, NO_STEP, ROOM, TABLE};
use crate::sheet::{ExprLine, Sheet, StepLine};
use crate::tables::{expr_fits, step_fits};

pub const MOST_EXPRS: usize = 128;
pub const MOST_STEPS: usize = 32;

pub fn read(bytes: &[u8]) -> Result<Sheet, u8> {
    let mut sheet = Sheet::default();
    let mut agg_entries = 0;
    let mut rest = bytes;

    while !rest.is_empty() {
        let end = rest.iter().position(|&byte| byte == b'\n').ok_or(FORM)?;
        let (letter, numbers) = line_form(&rest[..end]).ok_or(FORM)?;
        rest = &rest[end + 1..];

        match letter {
            b'E' if sheet.steps.is_empty() => sheet.exprs.push(expr_line(&numbers).ok_or(TABLE)?),
            b'P' => {
                let line = step_line(&numbers).ok_or(TABLE)?;
                if line.kind == step::GROUP_BY {
                    agg_entries += line.more_exprs.len();
                }
                sheet.steps.push(line);
            },
            _ => return Err(FORM),
        }

        if sheet.steps.len() > MOST_STEPS || sheet.exprs.len() + agg_entries > MOST_EXPRS {
            return Err(ROOM);
        }
    }

    if sheet.steps.is_empty() {
        return Err(NO_STEP);
    }

    Ok(sheet)
}

/// The letter and the numbers of a line that is of the form, its byte 10 left out.
fn line_form(line: &[u8]) -> Option<(u8, Vec<u8>)> {
    let (&letter, fields) = line.split_first()?;
    let least = match letter {
        b'E' => 4,
        b'P' => 7,
        _ => return None,
    };

    let numbers: Vec<u8> = fields.strip_prefix(b",")?.split(|&byte| byte == b',').map(number).collect::<Option<_>>()?;

    (numbers.len() >= least).then_some((letter, numbers))
}

/// 0 to 255 in base ten, without leading zeros.
fn number(digits: &[u8]) -> Option<u8> {
    if digits.len() > 3 || (digits.len() > 1 && digits[0] == b'0') || !digits.iter().all(u8::is_ascii_digit) {
        return None;
    }
    std::str::from_utf8(digits).ok()?.parse().ok()
}

fn expr_line(numbers: &[u8]) -> Option<ExprLine> {
    let (&[kind, scalar, length_preserving, option], children) = numbers.split_first_chunk()?;
    let line = ExprLine { kind, scalar, length_preserving, option, children: children.to_vec() };
    expr_fits(&line).then_some(line)
}

fn step_line(numbers: &[u8]) -> Option<StepLine> {
    let (&[kind, a, b, c, n1, n2, n3], lists) = numbers.split_first_chunk()?;
    let (inputs, exprs) = lists.split_at_checked(usize::from(n1))?;
    let (exprs, more_exprs) = exprs.split_at_checked(usize::from(n2))?;
    let line =
        StepLine { kind, a, b, c, inputs: inputs.to_vec(), exprs: exprs.to_vec(), more_exprs: more_exprs.to_vec() };
    (more_exprs.len() == usize::from(n3) && step_fits(&line)).then_some(line)
}
