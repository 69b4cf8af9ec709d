//! The cases A to J of the paper.
use crate::answer;

const A: &str = "\
E,0,0,1,0
P,0,0,0,0,0,0,0
P,5,1,0,0,1,1,0,0,0
P,2,0,0,0,1,0,0,1
";

#[test]
fn a_sort_under_an_unordered_edge_goes() {
    let finished = "\
E,0,0,1,0
P,0,0,0,0,0,0,0
P,5,1,0,0,1,1,0,0,0
P,2,0,0,0,1,0,0,0
G,2,0,0
G,1,0,0
T,1,5,0
";
    assert_eq!(answer(A), finished);
}

#[test]
fn b_a_slice_keeps_the_sort() {
    let finished = "\
E,0,0,1,0
P,0,0,0,0,0,0,0
P,5,1,1,0,1,1,0,0,0
P,2,0,0,0,1,0,0,1
G,2,0,0
G,1,0,1
T,0,6,2
";
    assert_eq!(answer(&A.replace("P,5,1,0,", "P,5,1,1,")), finished);
}

#[test]
fn c_an_unstable_sort_frees_its_input() {
    let finished = "\
E,0,0,1,0
P,0,0,0,0,0,0,0
P,5,0,1,0,1,1,0,0,0
P,2,0,0,0,1,0,0,1
G,2,0,0
G,1,0,0
T,0,6,2
";
    assert_eq!(answer(&A.replace("P,5,1,0,", "P,5,0,1,")), finished);
}

#[test]
fn d_hconcat_of_nothing_is_unordered() {
    let finished = "\
P,14,0,0,0,0,0,0
P,2,0,0,0,1,0,0,0
G,1,0,0
T,0,4,0
";
    assert_eq!(answer("P,14,0,0,0,0,0,0\nP,2,1,0,0,1,0,0,0\n"), finished);
}

#[test]
fn e_semi_join_drops_its_right_side() {
    let sheet = "\
P,0,0,0,0,0,0,0
P,0,0,0,0,0,0,0
P,9,1,3,0,2,0,0,0,1
P,2,1,0,0,1,0,0,2
";
    let finished = "\
P,0,0,0,0,0,0,0
P,0,0,0,0,0,0,0
P,9,1,1,0,2,0,0,0,1
P,2,1,0,0,1,0,0,2
G,3,0,1
G,2,0,1
G,2,1,0
T,0,8,0
";
    assert_eq!(answer(sheet), finished);
}

#[test]
fn f_distinct_first_observes_its_input() {
    let first = "P,0,0,0,0,0,0,0\nP,8,1,0,0,1,0,0,0\nP,2,0,0,0,1,0,0,1\n";
    let finished = "\
P,0,0,0,0,0,0,0
P,8,0,0,0,1,0,0,0
P,2,0,0,0,1,0,0,1
G,2,0,0
G,1,0,1
T,0,6,0
";
    assert_eq!(answer(first), finished);

    let any = first.replace("P,8,1,0,0,", "P,8,1,0,2,");
    let finished = "\
P,0,0,0,0,0,0,0
P,8,0,0,2,1,0,0,0
P,2,0,0,0,1,0,0,1
G,2,0,0
G,1,0,0
T,0,6,0
";
    assert_eq!(answer(&any), finished);
}

const G: &str = "\
E,0,0,1,0
E,7,0,1,0,0
P,0,0,0,0,0,0,0
P,3,0,0,0,1,1,0,0,1
P,2,0,0,0,1,0,0,1
";

#[test]
fn g_looks_are_counted() {
    let finished = format!("{G}G,2,0,0\nG,1,0,0\nT,0,6,8\n");
    assert_eq!(answer(G), finished);
}

#[test]
fn h_a_sort_becomes_a_copy_of_its_child() {
    let sheet = G.replace("E,7,0,1,0,0", "E,9,0,1,0,0");
    let finished = format!("{}G,2,0,0\nG,1,0,0\nT,0,6,6\n", G.replace("E,7,0,1,0,0", "E,0,0,1,0"));
    assert_eq!(answer(&sheet), finished);
}

#[test]
fn i_the_empty_sheet_has_no_step() {
    assert_eq!(answer(""), "R,6\n");
}

#[test]
fn j_a_join_key_has_to_be_elementwise() {
    let sheet = "\
E,0,0,1,0
E,8,0,0,0,0
E,0,0,1,0
P,0,0,0,0,0,0,0
P,0,0,0,0,0,0,0
P,9,0,0,0,2,1,1,0,1,1,2
P,2,0,0,0,1,0,0,2
";
    assert_eq!(answer(sheet), "R,10\n");
}
