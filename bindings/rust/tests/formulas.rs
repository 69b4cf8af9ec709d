//! Formulas with their lines, and some for each refusal.
use simplify_ordering::{finish, formula, formula_into, FormulaRefusal, LEAST_OUTPUT, LONGEST_FORMULA};

const FORMULA: &[u8] = b"a + b * 3 > c";

const LINES: &[u8] = b"\
E,0,0,1,0
E,0,0,1,0
E,1,1,0,0
E,5,0,1,0,1,2
E,5,0,1,0,0,3
E,0,0,1,0
E,5,0,1,0,4,5
";

/// No line has it.
const FILL: u8 = 170;

/// So many operands in a row.
fn chain(operands: usize) -> Vec<u8> {
    vec!["a"; operands].join("+").into_bytes()
}

fn in_brackets(operand: &str, depth: usize) -> Vec<u8> {
    format!("{}{operand}{}", "(".repeat(depth), ")".repeat(depth)).into_bytes()
}

/// Formulas that are refused by the number, with an output that is long enough; 1 is about the output alone.
fn refused_formulas(refusal: FormulaRefusal) -> Vec<Vec<u8>> {
    match refusal {
        FormulaRefusal::Output => vec![FORMULA.to_vec(), Vec::new(), in_brackets("a", LONGEST_FORMULA)],
        FormulaRefusal::Length => vec![in_brackets("a", LONGEST_FORMULA / 2), vec![b'A'; LONGEST_FORMULA + 1]],
        FormulaRefusal::NoFormula => {
            let texts: [&[u8]; 9] = [b"", b"a\n", b" a", b"a  + b", b"-a", b"a <= b", b"007", b"(a", b"\xff"];
            let mut formulas: Vec<Vec<u8>> = texts.iter().map(|text| text.to_vec()).collect();
            // the fault decides, however many operands there are
            formulas.push([chain(65), b"+".to_vec()].concat());
            formulas
        },
        FormulaRefusal::ManyLines => vec![chain(65), chain(LONGEST_FORMULA / 2)],
        other => panic!("no formula for {other}"),
    }
}

fn lent_for(refusal: FormulaRefusal) -> usize {
    if refusal == FormulaRefusal::Output {
        LEAST_OUTPUT - 1
    } else {
        LEAST_OUTPUT
    }
}

#[test]
fn lines_of_formulas() {
    assert_eq!(formula(FORMULA).as_deref(), Ok(LINES));
    assert_eq!(formula(b"255").as_deref(), Ok(&b"E,1,1,0,0\n"[..]));
    assert_eq!(formula(b"1-2").as_deref(), Ok(&b"E,1,1,0,0\nE,1,1,0,0\nE,5,1,0,0,0,1\n"[..]));
    assert_eq!(formula(b"a-b-c"), formula(b"(a - b) - c"));
    assert_ne!(formula(b"a-b-c"), formula(b"a - (b - c)"));
}

#[test]
fn the_longest_formula_and_the_most_operands() {
    let longest = in_brackets("a ", LONGEST_FORMULA / 2 - 1);
    assert_eq!(longest.len(), LONGEST_FORMULA);
    assert_eq!(formula(&longest).as_deref(), Ok(&b"E,0,0,1,0\n"[..]));

    let lines = formula(&chain(64)).expect("64 operands are few enough");
    assert_eq!(lines.iter().filter(|&&byte| byte == b'\n').count(), 127);
    assert!(lines.ends_with(b"E,5,0,1,0,124,125\n"));
}

#[test]
fn the_bytes_behind_the_lines_stay() {
    let mut out = vec![FILL; LEAST_OUTPUT + 1];
    assert_eq!(formula_into(FORMULA, &mut out), Ok(LINES.len()));
    assert_eq!(&out[..LINES.len()], LINES);
    assert!(out[LINES.len()..].iter().all(|&byte| byte == FILL));
}

#[test]
fn each_refusal_alters_no_byte() {
    for &refusal in FormulaRefusal::ALL {
        for text in refused_formulas(refusal) {
            let mut out = vec![FILL; lent_for(refusal)];
            assert_eq!(formula_into(&text, &mut out), Err(refusal), "{}", text.escape_ascii());
            assert!(out.iter().all(|&byte| byte == FILL));
            if refusal != FormulaRefusal::Output {
                assert_eq!(formula(&text), Err(refusal));
            }
        }
    }
    assert_eq!(formula_into(FORMULA, &mut []), Err(FormulaRefusal::Output));
}

/// A Scan, a Select of the last line and a Sink behind them. No E line changes, since there is no sort among them.
#[test]
fn lines_on_a_sheet() {
    for text in [FORMULA, b"a", b"7", b"(1+2)*3", &chain(64)] {
        let lines = formula(text).expect("it is a formula");
        let last = lines.iter().filter(|&&byte| byte == b'\n').count() - 1;
        let steps = format!("P,0,0,0,0,0,0,0\nP,3,0,0,0,1,1,0,0,{last}\nP,2,1,0,0,1,0,0,1\n");
        let sheet = [lines.as_slice(), steps.as_bytes()].concat();
        assert!(finish(&sheet).is_ok_and(|finished| finished.starts_with(&lines)));
    }
}

#[test]
fn refusals_by_number() {
    let numbers: Vec<u8> = FormulaRefusal::ALL.iter().map(|refusal| refusal.number()).collect();
    assert_eq!(numbers, [1, 2, 14, 15]);
    for &refusal in FormulaRefusal::ALL {
        assert_eq!(FormulaRefusal::of_number(refusal.number()), Some(refusal));
    }
    assert_eq!(FormulaRefusal::of_number(0), None);
    assert_eq!(FormulaRefusal::of_number(3), None);
    assert_eq!(FormulaRefusal::ManyLines.to_string(), "refused by 15: there are too many operands");
}
