//! The lines of a sheet as numbers, and their text.

#[derive(Clone, Debug, Default, PartialEq, Eq)]
pub struct Sheet {
    pub exprs: Vec<ExprLine>,
    pub steps: Vec<StepLine>,
}

/// `E,kind,scalar,length_preserving,option,children`
#[derive(Clone, Debug, Default, PartialEq, Eq)]
pub struct ExprLine {
    pub kind: u8,
    pub scalar: u8,
    pub length_preserving: u8,
    pub option: u8,
    pub children: Vec<u8>,
}

/// `P,kind,a,b,c,n1,n2,n3,inputs,exprs,more_exprs`
#[derive(Clone, Debug, Default, PartialEq, Eq)]
pub struct StepLine {
    pub kind: u8,
    pub a: u8,
    pub b: u8,
    pub c: u8,
    pub inputs: Vec<u8>,
    pub exprs: Vec<u8>,
    pub more_exprs: Vec<u8>,
}

impl Sheet {
    pub fn text(&self) -> Vec<u8> {
        let mut text = vec![];
        for line in &self.exprs {
            line.write(&mut text);
        }
        for line in &self.steps {
            line.write(&mut text);
        }
        text
    }
}

impl ExprLine {
    pub fn write(&self, text: &mut Vec<u8>) {
        let facts = [self.kind, self.scalar, self.length_preserving, self.option];
        write_line(text, b'E', facts.into_iter().chain(self.children.iter().copied()));
    }
}

impl StepLine {
    /// All expressions of the line.
    pub fn all_exprs(&self) -> impl Iterator<Item = u8> {
        self.exprs.iter().chain(&self.more_exprs).copied()
    }

    pub fn write(&self, text: &mut Vec<u8>) {
        let options = [self.kind, self.a, self.b, self.c];
        let counts = [&self.inputs, &self.exprs, &self.more_exprs].map(|list| list.len() as u8);
        let numbers = options.into_iter().chain(counts);
        write_line(text, b'P', numbers.chain(self.inputs.iter().copied()).chain(self.all_exprs()));
    }
}

/// A letter, each number after a comma, and byte 10.
pub fn write_line<N: Into<u64>>(text: &mut Vec<u8>, letter: u8, numbers: impl IntoIterator<Item = N>) {
    text.push(letter);
    for number in numbers {
        text.push(b',');
        write_number(text, number.into());
    }
    text.push(b'\n');
}

fn write_number(text: &mut Vec<u8>, number: u64) {
    if number >= 10 {
        write_number(text, number / 10);
    }
    text.push(b'0' + (number % 10) as u8);
}
