//! The plans of the folder worst, which `compare worst` times: each is what its name says.
use std::fs;

use crate::{answer, lines};

const FOLDER: &str = concat!(env!("CARGO_MANIFEST_DIR"), "/worst");

fn finished(plan: &str) -> String {
    answer(&fs::read_to_string(format!("{FOLDER}/{plan}")).unwrap())
}

#[test]
fn all_but_one_are_finished() {
    for entry in fs::read_dir(FOLDER).unwrap() {
        let name = entry.unwrap().file_name().into_string().unwrap();
        assert_eq!(finished(&name).starts_with("R,"), name == "refused_16384_bytes", "{name}");
    }
}

#[test]
fn the_most_looks_edges_and_removed_sorts() {
    assert!(finished("struct_evals_128").ends_with("T,0,6,16768\n"));
    assert!(finished("sorts_30").ends_with("T,30,34,0\n"));
    for plan in ["cache_under_29_steps", "cache_under_29_unions", "cache_under_29_unions_unordered"] {
        assert_eq!(lines(&finished(plan), 'G').len(), 234, "{plan}");
    }
}

#[test]
fn a_chain_for_each_pair_of_flags_of_a_function() {
    // one that ends the order of its input looks at its child again in any mode, and is cached at its own first look
    for (end, looks) in
        [("", 16768), ("_that_make_no_order", 16768), ("_that_end_order", 512), ("_that_end_order_and_make_none", 258)]
    {
        assert!(finished(&format!("functions_128{end}")).ends_with(&format!("T,0,6,{looks}\n")), "{end}");
    }
}

#[test]
fn implodes_are_put_in() {
    for (plan, count) in [("implodes_64", 64), ("implodes_over_functions", 8)] {
        let finished = finished(plan);
        let implodes = lines(&finished, 'E').into_iter().filter(|line| line.starts_with("E,23,"));
        assert_eq!(implodes.count(), count, "{plan}");
    }
}
