//! The walks and the looks: points that a careless reading gets wrong.
use crate::{answer, lines, list_lines};

const SCAN: &str = "P,0,0,0,0,0,0,0\n";

/// Min(StructEval(Sort(Column), First(StructField)))
const KEY_THAT_CHANGES: &str = "\
E,0,0,1,0
E,9,0,1,0,0
E,3,0,1,0
E,21,1,0,0,2
E,15,0,1,0,1,3
E,22,1,0,0,4
";

/// The last of these expressions in a Select over a Scan, under a Sink.
fn select(exprs: &str, sink_maintains: u8) -> String {
    let root = exprs.lines().count() - 1;
    format!("{exprs}{SCAN}P,3,0,0,0,1,1,0,0,{root}\nP,2,{sink_maintains},0,0,1,0,0,1\n")
}

#[test]
fn a_join_may_fail_on_the_way_up_only() {
    let sheet = format!("{KEY_THAT_CHANGES}{SCAN}{SCAN}P,9,0,0,0,2,1,0,0,1,5\nP,2,1,0,0,1,0,0,2\n");
    let (lists, number) = list_lines(&sheet);
    // The downward walk has four visits, so the seventh is an upward one.
    assert_eq!(lists, ["L,2,2,0,0,2,8,5", "L,2,2,0,0,2,0", "L,7,2,0,0,1,6,5", "L,7,2,0,0,1,0"]);
    assert_eq!(number, 10);
}

#[test]
fn a_partitioned_sink_may_fail_on_the_way_up_only() {
    let sheet = format!("{KEY_THAT_CHANGES}{SCAN}P,2,1,1,0,1,1,0,0,5\n");
    let (lists, number) = list_lines(&sheet);
    assert_eq!(lists, ["L,1,1,0,0,2,8,5", "L,4,1,0,0,1,6,5"]);
    assert_eq!(number, 11);
}

#[test]
fn an_implode_switched_off_keeps_its_facts() {
    let finished = answer(&select("E,1,1,0,0\nE,23,0,1,1,0\n", 1));
    assert_eq!(lines(&finished, 'E'), ["E,1,1,0,0", "E,23,0,1,0,0"]);
}

#[test]
fn only_the_copy_of_an_implode_goes_off() {
    // Min(Sort(Implode(Literal)))
    let finished = answer(&select("E,1,1,0,0\nE,23,1,0,1,0\nE,9,0,1,0,1\nE,22,1,0,0,2\n", 1));
    assert_eq!(lines(&finished, 'E'), ["E,1,1,0,0", "E,23,1,0,1,0", "E,23,1,0,0,0", "E,22,1,0,0,2"]);
}

#[test]
fn a_removed_sort_keeps_its_line_and_its_edge() {
    let sheet = format!("{SCAN}P,5,0,0,0,1,0,0,0\nP,5,1,0,0,1,0,0,1\nP,2,0,0,0,1,0,0,2\n");
    let finished = "\
P,0,0,0,0,0,0,0
P,5,0,0,0,1,0,0,0
P,5,1,0,0,1,0,0,1
P,2,0,0,0,1,0,0,0
G,3,0,0
G,2,0,0
G,1,0,0
T,2,6,0
";
    assert_eq!(answer(&sheet), finished);
}

#[test]
fn a_sort_under_a_cache_goes() {
    // The cache stands in the list once for each naming, before the sort.
    let sheet = format!("{SCAN}P,5,1,0,0,1,0,0,0\nP,18,7,0,0,1,0,0,1\nP,2,0,0,0,1,0,0,2\nP,2,0,0,0,1,0,0,2\n");
    let finished = "\
P,0,0,0,0,0,0,0
P,5,1,0,0,1,0,0,0
P,18,7,0,0,1,0,0,0
P,2,0,0,0,1,0,0,2
P,2,0,0,0,1,0,0,2
G,3,0,0
G,4,0,0
G,2,0,0
G,1,0,0
T,1,11,0
";
    assert_eq!(answer(&sheet), finished);
}

#[test]
fn group_by_appends_an_implode_once() {
    let sheet = format!("E,0,0,1,0\n{SCAN}P,7,1,0,0,1,0,1,0,0\nP,2,1,0,0,1,0,0,1\n");
    let finished = answer(&sheet);
    assert_eq!(lines(&finished, 'E'), ["E,0,0,1,0", "E,23,1,0,1,0"]);
    assert_eq!(lines(&finished, 'P')[1], "P,7,1,0,0,1,0,1,0,1");
    assert_eq!(lines(&finished, 'T'), ["T,0,6,4"]);
}

#[test]
fn both_key_lists_of_a_join_share_what_they_observe() {
    // First(Column) on the left is told of again after the list on the right; the assertions come after both.
    let sheet = format!("E,0,0,1,0\nE,21,1,0,0,0\nE,0,0,1,0\n{SCAN}{SCAN}P,9,3,0,0,2,1,1,0,1,1,2\nP,2,1,0,0,1,0,0,2\n");
    let (lists, number) = list_lines(&sheet);
    assert_eq!(lists, ["L,2,2,0,0,1,2,1", "L,2,2,0,1,1,1,2"]);
    assert_eq!(number, 10);
}

#[test]
fn unoptimized_dispatch_loosens_nothing() {
    let sheet = format!("{SCAN}P,5,1,0,0,1,0,0,0\nP,1,0,0,0,1,0,0,1\nP,2,0,0,0,1,0,0,2\n");
    let finished = answer(&sheet);
    assert_eq!(lines(&finished, 'G'), ["G,3,0,0", "G,2,0,1", "G,1,0,1"]);
    assert_eq!(lines(&finished, 'T'), ["T,0,8,0"]);
}

#[test]
fn the_option_of_merge_sorted_is_not_read() {
    for maintain in [0, 1] {
        let ordered = format!("{SCAN}{SCAN}P,12,{maintain},0,0,2,0,0,0,1\nP,2,1,0,0,1,0,0,2\n");
        let finished = answer(&ordered);
        assert_eq!(lines(&finished, 'P')[2], format!("P,12,{maintain},0,0,2,0,0,0,1"));
        assert_eq!(lines(&finished, 'G'), ["G,3,0,1", "G,2,0,1", "G,2,1,1"]);

        let unordered = ordered.replace("P,2,1,", "P,2,0,");
        assert_eq!(lines(&answer(&unordered), 'P')[2], "P,11,0,0,0,2,0,0,0,1");
    }
}

#[test]
fn hstack_counts_as_such_unless_it_replaces_every_column() {
    for (columns, edges) in [(0, ["G,2,0,1", "G,1,0,1"]), (1, ["G,2,0,0", "G,1,0,0"]), (2, ["G,2,0,1", "G,1,0,1"])] {
        let sheet = format!("E,1,1,0,0\n{SCAN}P,4,{columns},0,0,1,1,0,0,0\nP,2,1,0,0,1,0,0,1\n");
        assert_eq!(lines(&answer(&sheet), 'G'), edges);
    }
}

#[test]
fn filter_looks_again_at_its_predicate_without_leave_from_above() {
    let finished = answer(&select("E,1,1,0,0\nE,0,0,1,0\nE,9,0,1,0,1\nE,11,0,0,0,0,2\n", 1));
    assert_eq!(lines(&finished, 'E')[2], "E,0,0,1,0");
}

#[test]
fn the_second_look_at_a_struct_eval_uses_its_own_field_order() {
    // StructEval(Literal, StructEval(Sort(StructField))): the outer field order is empty, the inner one INDEPENDENT.
    let sheet = select("E,1,1,0,0\nE,3,0,1,0\nE,9,0,1,0,1\nE,15,0,1,0,2\nE,15,0,1,0,0,3\n", 0);
    let (lists, _) = list_lines(&sheet);
    assert_eq!(lists, ["L,2,1,1,2,0,15,4", "L,5,1,1,0,0,4,4"]);
}

#[test]
fn ternary_looks_at_its_predicate_last() {
    // Mixed inputs that only the predicate brings are observed, without the predicate's own order.
    let (lists, _) = list_lines(&select("E,0,0,1,0\nE,1,0,0,0\nE,1,1,0,0\nE,6,0,1,0,0,1,2\n", 1));
    assert_eq!(lists[0], "L,2,1,0,2,2,4,3");
}
