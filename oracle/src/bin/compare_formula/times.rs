//! The CPU time of converting, by the reference and by the library in turn, on families of formulas.
use oracle::cpu_time::{self, NO_ROUND, Round, least};
use oracle::formula::{LONGEST_FORMULA, convert, with_stack};
use oracle::generate::formulas as generate;

use crate::asked::LENT;
use crate::library;

/// So often all families are gone through, with so many rounds for each: a busy moment of the machine does not meet all of one.
pub const PASSES: usize = 8;
pub const ROUNDS: usize = 5;
/// The generated formulas are those of this seed.
const SEED: u64 = 1;
/// A round converts a family as often as makes so many bytes.
const BYTES: usize = 100_000;

const SPACED: [&str; 6] =
    ["a + b * 3 > c", "a + b", "x = 1 | y < 20 & z > 3", "a * (b - 17) / c", "( a | b ) & c = 255", "p - q - 10 * r"];

pub struct Family {
    name: &'static str,
    pub formulas: Vec<Vec<u8>>,
    /// The least so far.
    times: Round,
}

pub fn families() -> [Family; 10] {
    let spaced: Vec<String> = SPACED.map(str::to_string).into();
    let dense = spaced.iter().map(|formula| formula.replace(' ', "")).collect();
    let deepest = LONGEST_FORMULA / 2 - 1;
    let brackets = format!("{}10{}", "(".repeat(deepest), ")".repeat(deepest));
    let many = chain(LONGEST_FORMULA / 2);
    [
        family("spaced", spaced),
        family("dense", dense),
        family("64 operands", vec![chain(64)]),
        family("64 operands, spaced", vec![chain(64).chars().map(String::from).collect::<Vec<_>>().join(" ")]),
        // Few branches go as they went in the formula before.
        family("generated", generated(400, |_| true)),
        family("generated, 64 operands", generated(40, |operands| operands == 64)),
        family("8,191 brackets", vec![brackets.clone()]),
        family("one bracket open", vec![format!("({}", &brackets[..brackets.len() - 1])]),
        family("fault at the end", vec![format!("{many}+")]),
        family("too many operands", vec![many]),
    ]
}

fn family(name: &'static str, formulas: Vec<String>) -> Family {
    Family { name, formulas: formulas.into_iter().map(String::into_bytes).collect(), times: NO_ROUND }
}

/// So many operands without spaces, and all operators in turn.
fn chain(operands: usize) -> String {
    let letters = ('a'..='z').cycle();
    let operators = "+*<-&/|=>".chars().cycle();
    let mut text: String =
        letters.zip(operators).take(operands).flat_map(|(letter, operator)| [letter, operator]).collect();
    text.pop();
    text
}

/// The first so many generated formulas that have lines, and a number of operands that suits.
fn generated(count: usize, suits: fn(usize) -> bool) -> Vec<String> {
    let operands = |lines: Vec<u8>| lines.iter().filter(|&&byte| byte == b'\n').count() / 2 + 1;
    (0..)
        .map(|number| generate::formula(SEED, number))
        .filter(|formula| convert(formula, LENT).is_ok_and(|lines| suits(operands(lines))))
        .map(|formula| String::from_utf8(formula).expect("a formula is ASCII"))
        .take(count)
        .collect()
}

/// Times all, and prints what a byte takes.
pub fn time(families: &mut [Family]) {
    with_stack(|| {
        let mut out = vec![0; LENT];
        for _ in 0..PASSES {
            for family in &mut *families {
                for _ in 0..ROUNDS {
                    family.times = least(family.times, family.round(&mut out));
                }
            }
        }
    });
    families.iter().for_each(Family::print);
}

impl Family {
    fn bytes(&self) -> usize {
        self.formulas.iter().map(Vec::len).sum()
    }

    /// So often a round converts the family.
    fn calls(&self) -> usize {
        (BYTES / self.bytes()).max(1)
    }

    /// A round: the family converted by the reference, then by the library.
    fn round(&self, out: &mut [u8]) -> Round {
        let formulas = || (0..self.calls()).flat_map(|_| &self.formulas);
        let by_reference = || formulas().map(|formula| convert(formula, LENT)).collect::<Vec<_>>();
        let by_library = || formulas().map(|formula| library::convert(formula, out)).collect::<Vec<_>>();
        [cpu_time::of(by_reference), cpu_time::of(by_library)]
    }

    fn print(&self) {
        let bytes = self.calls() * self.bytes();
        let [reference, library] = self.times.map(|time| time.as_nanos() as f64 / bytes as f64);
        let (name, ratio) = (self.name, library / reference);
        let length = self.bytes() as f64 / self.formulas.len() as f64;
        println!(
            "{name:20} {length:7.1} bytes each; reference {reference:6.2} ns a byte, library {library:6.2}, ratio {ratio:.2}"
        );
    }
}
