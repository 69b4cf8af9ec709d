//! The refusals of formulas, in their order.
use oracle::LEAST_OUTPUT;
use oracle::formula::{convert, with_stack};

use crate::{answer, chain, operators};

fn refused(number: u8, formula: impl AsRef<[u8]>) {
    let formula = formula.as_ref();
    assert_eq!(answer(formula), Err(number), "{}", formula.escape_ascii());
}

/// The formula with spaces before its last byte, up to the length: no formula.
fn filled(formula: &str, length: usize) -> Vec<u8> {
    let (front, last) = formula.split_at(formula.len() - 1);
    format!("{front}{}{last}", " ".repeat(length - formula.len())).into_bytes()
}

#[test]
fn no_formula() {
    for formula in [
        "", " ", "  ", "\n", "()", "( )", ")(", "(", ")", "a\n", "\na", "a\r\n", "a\t+b", "a\t", "A", "a+B", "é",
        "a\0", "\0", "_", "a.b", "a^b", "a%b", "!a", "~a", "a,b", "[a]", "{a}", "'a'", "a;", "a==b", "a=>b", "a<=b",
        "<=", "a<>b", "a&&b", "a||b", "a**b", "a//b", "a++b", "a--b", "-a", "+a", "a+-b", "a*-1", "-1", "a+", "+",
        "*a", "a+b*", "a +", "+ a", "(a+)b", "a(+b)", " a", "a ", "a  + b", "a +  b", "(  a)", "( a  )", "a+b ",
        " a+b", "ab", "a b", "a1", "1a", "1 2", "a 1", "1 a", "12a", "a(b)", "(a)b", "(a)(b)", "2(a)", "(a)2", "() a",
        "a ()", "(a", "a)", "((a)", "(a))", ")a(", "(a+b", "a+b)", "(a+(b)", "a<b)<c",
    ] {
        refused(14, formula);
    }
}

#[test]
fn numbers() {
    let wrong = "00 01 007 000 0255 256 257 260 300 999 1000 2550 65536 4294967296 18446744073709551616 0x1 1.0";
    for number in wrong.split(' ') {
        refused(14, number);
        refused(14, format!("a+{number}"));
        refused(14, format!("({number})"));
    }
    refused(14, format!("{}1", "0".repeat(16_383)));
    refused(14, "9".repeat(16_384));
    refused(14, format!("{}1", u128::MAX));
    for formula in ["2 5", "25 5", "2 55", "0 0"] {
        refused(14, formula);
    }
}

#[test]
fn bytes_that_no_token_has() {
    let tokens: String = ('a'..='z').chain('0'..='9').chain("()|&<>=+-*/ ".chars()).collect();
    for byte in (0..=255).filter(|byte| !tokens.as_bytes().contains(byte)) {
        for place in 0..=3 {
            let mut formula = b"a+b".to_vec();
            formula.insert(place, byte);
            refused(14, &formula);
            formula.remove((place + 1) % 4);
            refused(14, &formula);
        }
        refused(14, [byte]);
        refused(14, [&b"a "[..], &[byte], b" b"].concat());
    }
}

#[test]
fn sixty_five_operands() {
    for (_, operator) in operators() {
        for between in [operator.to_string(), format!(" {operator} ")] {
            assert!(answer(&chain(64, &between)).is_ok());
            refused(15, chain(65, &between));
        }
    }
    refused(15, chain(8_192, "+"));
    refused(15, format!("({})*1", chain(64, "+")));
    refused(15, format!("{}a{}", "a+(".repeat(64), ")".repeat(64)));
    assert!(answer(&format!("{}1{}", "1+(".repeat(63), ")".repeat(63))).is_ok());
}

#[test]
fn fourteen_comes_before_fifteen() {
    let many = chain(65, "+");
    for end in ["+", " ", "b", " 1", ")", "\n", "+256", "+B", "++a"] {
        refused(14, format!("{many}{end}"));
        refused(14, format!("{}{end}", chain(8_000, "+")));
    }
    for front in ["-", " ", "(", "1", "00+"] {
        refused(14, format!("{front}{many}"));
    }
}

#[test]
fn lengths() {
    let brackets = |depth| format!("{}10{}", "(".repeat(depth), ")".repeat(depth));
    assert_eq!(brackets(8_191).len(), 16_384);
    assert!(answer(&brackets(8_191)).is_ok());
    refused(2, format!("({})", brackets(8_191)));
    refused(2, brackets(8_191).replace("10", "100"));
    refused(14, brackets(8_191).replace("10", "01"));
    refused(14, "(".repeat(16_384));
    refused(2, "(".repeat(16_385));
    refused(14, filled("a+b", 16_384));
    refused(2, filled("a+b", 16_385));
    refused(15, format!("{}10", "a+".repeat(8_191)));
    refused(2, format!("{}100", "a+".repeat(8_191)));
}

#[test]
fn brackets_that_do_not_match() {
    for (open, close) in
        [(8_191, 8_190), (8_190, 8_191), (8_192, 8_191), (8_191, 8_192), (1, 0), (0, 1), (16_383, 0), (0, 16_383)]
    {
        refused(14, format!("{}a{}", "(".repeat(open), ")".repeat(close)));
    }
}

#[test]
fn a_short_output_comes_first() {
    let answer = |formula: &str, out_len| with_stack(|| convert(formula.as_bytes(), out_len));
    let (least, too_long) = (LEAST_OUTPUT, "a".repeat(16_385));
    for formula in ["a", "", "A", &chain(65, "+"), &too_long] {
        for out_len in [0, 1, 10, least - 1] {
            assert_eq!(answer(formula, out_len), Err(1));
        }
    }
    for out_len in [least, least + 1, usize::MAX] {
        assert!(answer("a", out_len).is_ok());
        assert_eq!(answer(&too_long, out_len), Err(2));
    }
}
