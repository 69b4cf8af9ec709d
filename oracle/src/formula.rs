//! A formula to its E lines, by recursive descent. It was written from the request alone and owes nothing to the port.
use std::thread::{Builder, scope};

use crate::kinds::expr::{BINARY_EXPR, COLUMN, LITERAL};
use crate::reading::MOST_EXPRS;
use crate::refusals::{LENGTH, MANY_LINES, NO_FORMULA, OUTPUT};
use crate::sheet::write_line;
use crate::{LEAST_OUTPUT, LONGEST_SHEET};

/// As long as a sheet.
pub const LONGEST_FORMULA: usize = LONGEST_SHEET;

/// The operators from loosest to tightest.
const LEVELS: [&[u8]; 5] = [b"|", b"&", b"<>=", b"+-", b"*/"];

/// 16,384 brackets opened in one another take less than 24 MB, in any build.
const STACK: usize = 256 << 20;

/// The formula's lines, or the number of the refusal. Brackets in one another take stack: see `with_stack`.
pub fn convert(formula: &[u8], out_len: usize) -> Result<Vec<u8>, u8> {
    if out_len < LEAST_OUTPUT {
        return Err(OUTPUT);
    }
    if formula.len() > LONGEST_FORMULA {
        return Err(LENGTH);
    }
    let lines = lines(formula).ok_or(NO_FORMULA)?;
    if lines.len() > MOST_EXPRS {
        return Err(MANY_LINES);
    }
    Ok(text(&lines))
}

/// Does the work in a thread whose stack is enough for every formula.
pub fn with_stack<T: Send>(work: impl FnOnce() -> T + Send) -> T {
    scope(|scope| {
        let thread = Builder::new().stack_size(STACK).spawn_scoped(scope, work);
        thread.expect("no thread with a large stack").join().expect("the work panicked")
    })
}

#[derive(Clone, Copy, PartialEq, Eq)]
enum Token {
    Letter,
    Number,
    /// An operator or a bracket.
    Sign(u8),
}

/// The tokens, of which two may have one space between them.
fn tokens(formula: &[u8]) -> Option<Vec<Token>> {
    let mut tokens = vec![];
    for mut part in formula.split(|&byte| byte == b' ') {
        // A space at either end has nothing on one side, nor is anything between two together.
        if part.is_empty() {
            return None;
        }
        while !part.is_empty() {
            tokens.push(token(&mut part)?);
        }
    }
    Some(tokens)
}

/// Takes the first token off.
fn token(rest: &mut &[u8]) -> Option<Token> {
    let digits = rest.iter().take_while(|byte| byte.is_ascii_digit()).count();
    let (token, length) = match *rest.first()? {
        b'a'..=b'z' => (Token::Letter, 1),
        b'0'..=b'9' if is_number(&rest[..digits]) => (Token::Number, digits),
        sign if b"()".contains(&sign) || LEVELS.iter().any(|level| level.contains(&sign)) => (Token::Sign(sign), 1),
        _ => return None,
    };
    *rest = &rest[length..];
    Some(token)
}

/// Are the digits 0 to 255, without leading zeros?
fn is_number(digits: &[u8]) -> bool {
    let value = |digits: &[u8]| digits.iter().fold(0, |value, digit| 10 * value + u16::from(digit - b'0'));
    digits == b"0" || (digits[0] != b'0' && digits.len() <= 3 && value(digits) <= 255)
}

/// `E,kind,S,L,0,children`
struct Line {
    kind: u8,
    scalar: bool,
    length_preserving: bool,
    /// The left and the right of an operation.
    children: Option<[usize; 2]>,
}

/// The lines of a formula, however many; nothing if it is none.
fn lines(formula: &[u8]) -> Option<Vec<Line>> {
    let tokens = tokens(formula)?;
    let mut descent = Descent { rest: &tokens, lines: vec![] };
    descent.level(0)?;
    descent.rest.is_empty().then_some(descent.lines)
}

struct Descent<'a> {
    rest: &'a [Token],
    lines: Vec<Line>,
}

impl Descent<'_> {
    /// What the level's operators join, from the left. This and the following give the index of the last line that they write.
    fn level(&mut self, level: usize) -> Option<usize> {
        let Some(operators) = LEVELS.get(level) else {
            return self.operand();
        };
        let mut left = self.level(level + 1)?;
        while let Some((Token::Sign(sign), rest)) = self.rest.split_first()
            && operators.contains(sign)
        {
            self.rest = rest;
            let right = self.level(level + 1)?;
            left = self.operation(left, right);
        }
        Some(left)
    }

    fn operand(&mut self) -> Option<usize> {
        match self.take()? {
            Token::Letter => Some(self.write(COLUMN, false, true, None)),
            Token::Number => Some(self.write(LITERAL, true, false, None)),
            Token::Sign(b'(') => {
                let inner = self.level(0)?;
                (self.take()? == Token::Sign(b')')).then_some(inner)
            },
            Token::Sign(_) => None,
        }
    }

    fn operation(&mut self, left: usize, right: usize) -> usize {
        let (one, other) = (&self.lines[left], &self.lines[right]);
        let scalar = one.scalar && other.scalar;
        let length_preserving = one.length_preserving || other.length_preserving;
        self.write(BINARY_EXPR, scalar, length_preserving, Some([left, right]))
    }

    fn take(&mut self) -> Option<Token> {
        let (token, rest) = self.rest.split_first()?;
        self.rest = rest;
        Some(*token)
    }

    fn write(&mut self, kind: u8, scalar: bool, length_preserving: bool, children: Option<[usize; 2]>) -> usize {
        self.lines.push(Line { kind, scalar, length_preserving, children });
        self.lines.len() - 1
    }
}

fn text(lines: &[Line]) -> Vec<u8> {
    let mut text = vec![];
    for line in lines {
        let facts = [line.kind.into(), line.scalar.into(), line.length_preserving.into(), 0_u64];
        let children = line.children.into_iter().flatten().map(|child| child as u64);
        write_line(&mut text, b'E', facts.into_iter().chain(children));
    }
    text
}
