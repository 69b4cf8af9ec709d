//! Formulas and their lines.
use crate::{COLUMN, LITERAL, answer, chain, operators};

fn lines(formula: &str) -> Vec<String> {
    let text = answer(formula).unwrap_or_else(|number| panic!("R,{number} for {formula}"));
    assert!(text.ends_with('\n'));
    text.lines().map(str::to_string).collect()
}

fn same(one: &str, other: &str) {
    assert_eq!(lines(one), lines(other), "{one} and {other}");
}

fn differ(one: &str, other: &str) {
    assert_ne!(lines(one), lines(other), "{one} and {other}");
}

#[test]
fn the_requests_formula() {
    let wanted =
        ["E,0,0,1,0", "E,0,0,1,0", "E,1,1,0,0", "E,5,0,1,0,1,2", "E,5,0,1,0,0,3", "E,0,0,1,0", "E,5,0,1,0,4,5"];
    assert_eq!(lines("a + b * 3 > c"), wanted);
    same("a+b*3>c", "a + b * 3 > c");
}

#[test]
fn operands() {
    for letter in 'a'..='z' {
        assert_eq!(answer(letter.to_string()), Ok(COLUMN.to_string()));
    }
    for number in 0..=255 {
        assert_eq!(answer(number.to_string()), Ok(LITERAL.to_string()));
    }
}

#[test]
fn every_operator_beside_every_other() {
    let left_first = ["E,0,0,1,0", "E,0,0,1,0", "E,5,0,1,0,0,1", "E,0,0,1,0", "E,5,0,1,0,2,3"];
    let right_first = ["E,0,0,1,0", "E,0,0,1,0", "E,0,0,1,0", "E,5,0,1,0,1,2", "E,5,0,1,0,0,3"];
    for (level, operator) in operators() {
        for (other_level, other) in operators() {
            let formula = format!("a{operator}b{other}c");
            if other_level > level {
                assert_eq!(lines(&formula), right_first, "{formula}");
            } else {
                assert_eq!(lines(&formula), left_first, "{formula}");
            }
            assert_eq!(lines(&format!("(a{operator}b){other}c")), left_first);
            assert_eq!(lines(&format!("a{operator}(b{other}c)")), right_first);
        }
    }
}

#[test]
fn each_level_groups_to_the_left() {
    for (_, operator) in operators() {
        let wanted: String =
            (1..40).map(|place| format!("{COLUMN}E,5,0,1,0,{},{}\n", 2 * place - 2, 2 * place - 1)).collect();
        assert_eq!(answer(chain(40, &operator.to_string())), Ok(format!("{COLUMN}{wanted}")));
    }
    same("a<b<c", "(a<b)<c");
    same("a-b+c-d", "((a-b)+c)-d");
    differ("a-b+c-d", "a-(b+(c-d))");
}

#[test]
fn all_levels_at_once() {
    same("a|b&c<d+e*f", "a|(b&(c<(d+(e*f))))");
    same("a*b+c<d&e|f", "((((a*b)+c)<d)&e)|f");
    same("a+b*c-d/e>f=g&h|i&j", "((((a+(b*c))-(d/e))>f)=g)&h|(i&j)");
    same("a|b|c&d&e", "(a|b)|((c&d)&e)");
}

#[test]
fn scalar_and_length_preserving() {
    for (_, operator) in operators() {
        for (left, right, facts) in [("a", "b", "0,1"), ("a", "1", "0,1"), ("1", "a", "0,1"), ("1", "2", "1,0")] {
            assert_eq!(lines(&format!("{left}{operator}{right}"))[2], format!("E,5,{facts},0,0,1"));
        }
    }
    assert_eq!(lines("1+2*3")[4], "E,5,1,0,0,0,3");
    assert_eq!(lines("(1+2)*a")[2..], ["E,5,1,0,0,0,1", "E,0,0,1,0", "E,5,0,1,0,2,3"]);
    assert_eq!(lines("a*(1+2)")[3..], ["E,5,1,0,0,1,2", "E,5,0,1,0,0,3"]);
}

#[test]
fn brackets_make_no_line() {
    same("(a)", "a");
    same("((a))*((b))", "a*b");
    same("((a+b)*(c))", "(a+b)*c");
    differ("(a+b)*c", "a+b*c");
    differ("a-(b-c)", "a-b-c");
}

#[test]
fn spaces_between_tokens() {
    same("( a )", "a");
    same("( ( a + 12 ) * b )", "((a+12)*b)");
    same("a +b* 3", "a+b*3");
    same("(a )*( b)", "a*b");
    same("(a) * (b)", "a*b");
}

#[test]
fn sixty_four_operands() {
    let to_the_left = lines(&chain(64, " + "));
    let to_the_right = lines(&format!("{}a{}", "a+(".repeat(63), ")".repeat(63)));
    assert_eq!((to_the_left.len(), to_the_right.len()), (127, 127));
    assert_eq!(to_the_left[126], "E,5,0,1,0,124,125");
    assert_eq!(to_the_right[126], "E,5,0,1,0,0,125");
}

#[test]
fn brackets_as_deep_as_there_is_room() {
    for depth in [1, 100, 8_190, 8_191] {
        for inner in ["a", "10"] {
            let formula = format!("{}{inner}{}", "(".repeat(depth), ")".repeat(depth));
            same(&formula, inner);
        }
    }
    let half = format!("{}a{}", "(".repeat(4_095), ")".repeat(4_095));
    same(&format!("{half}*{half}"), "a*b");
    same(&format!("{} a{}", "(".repeat(8_191), ")".repeat(8_191)), "a");
}
