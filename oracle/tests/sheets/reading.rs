//! Refusals 3 to 9: what of the papers was open, and how it was settled.
use crate::refusal;

const COLUMN: &str = "E,0,0,1,0\n";
const SCAN: &str = "P,0,0,0,0,0,0,0\n";
const SINK: &str = "P,2,0,0,0,1,0,0,0\n";

fn refused(number: u8, sheet: &str) {
    assert_eq!(refusal(sheet.as_bytes()), number, "{sheet}");
}

/// An expression line under a Select.
fn expr(line: &str) -> String {
    let children = line.split(',').count() - 5;
    format!("{}{line}\n{SCAN}P,3,0,0,0,1,1,0,0,{children}\nP,2,0,0,0,1,0,0,1\n", COLUMN.repeat(children))
}

#[test]
fn line_form() {
    refused(6, "");
    for sheet in [
        "\n",
        "x\n",
        "E\n",
        "P\n",
        "E,\n",
        "e,0,0,1,0\n",
        "G,0,0,0\n",
        "E,0,0,1\n",
        "P,0,0,0,0,0,0\n",
        "E,0,0,1,\n",
        "E,0,0,1,0,\n",
        "E,,0,1,0\n",
        "E0,0,1,0\n",
        "E;0,0,1,0\n",
        "E,0,0,1,00\n",
        "E,00,0,1,0\n",
        "E,0,0,01,0\n",
        "E,0,0,1,256\n",
        "E,0,0,1,1000\n",
        "E,0,0,1,0\r\n",
        "E, 0,0,1,0\n",
        "E,0,0,1,0 \n",
        "E,+0,0,1,0\n",
        "E,-0,0,1,0\n",
        "E,0,0,1,0",
        " E,0,0,1,0\n",
        "E,0,0,1,0\n\n",
        "EE,0,0,1,0\n",
        "E,0,0,1,0x\n",
    ] {
        refused(3, sheet);
    }
    refused(3, &format!("{SCAN}{}", &SINK[..SINK.len() - 1]));
    refused(0, &format!("{SCAN}{SINK}"));
}

#[test]
fn an_e_after_a_p_is_3_whatever_it_holds() {
    refused(3, &format!("{SCAN}{COLUMN}"));
    refused(3, &format!("{SCAN}E,99,9,9,9\n"));
}

#[test]
fn more_numbers_than_the_table_has_are_4() {
    refused(4, "E,0,0,1,0,0\n");
    refused(4, "P,0,0,0,0,0,0,0,0\n");
    refused(4, "P,2,0,0,0,1,0,0\n");
    refused(4, "P,17,0,0,0,9,0,0,0,0,0,0,0,0,0,0,0\n");
}

#[test]
fn within_a_line_3_comes_before_4_and_4_before_5() {
    let full = COLUMN.repeat(128);
    refused(5, &format!("{full}{COLUMN}"));
    refused(4, &format!("{full}E,25,0,1,0\n"));
    refused(3, &format!("{full}E,25,0,1\n"));

    let full = SCAN.repeat(32);
    refused(5, &format!("{full}{SCAN}"));
    refused(4, &format!("{full}P,19,0,0,0,0,0,0\n"));
    refused(3, &format!("{full}P,19,0,0,0,0,0\n"));
}

#[test]
fn lines_are_judged_in_turn() {
    refused(4, "E,25,0,1,0\nx\n");
    refused(3, "x\nE,25,0,1,0\n");
    refused(5, &format!("{}x\n", SCAN.repeat(33)));
    refused(7, "P,17,0,0,0,1,0,0,0\n");
    refused(4, "P,17,0,0,0,1,0,0,0\nP,19,0,0,0,0,0,0\n");
}

#[test]
fn options_and_counts_of_expressions() {
    let limits = [0, 0, 0, 0, 0, 0, 0, 0, 0, 0, 1, 0, 1, 0, 1, 0, 1, 0, 0, 63, 0, 0, 0, 1, 0];
    let counts = [
        0..=0,
        0..=0,
        0..=0,
        0..=0,
        0..=0,
        2..=2,
        3..=3,
        1..=1,
        1..=1,
        1..=1,
        1..=8,
        2..=2,
        2..=2,
        3..=3,
        2..=2,
        1..=8,
        1..=8,
        2..=2,
        2..=2,
        0..=8,
        0..=8,
        1..=1,
        1..=1,
        1..=1,
        1..=1,
    ];
    let line = |kind: usize, s: usize, l: usize, option: usize, children: usize| {
        let numbers = [kind, s, l, option].into_iter().chain(0..children).map(|number| number.to_string());
        format!("E,{}", numbers.collect::<Vec<_>>().join(","))
    };
    let is_4 = |line: String| refusal(expr(&line).as_bytes()) == 4;

    for kind in 0..25 {
        let count = *counts[kind].end();
        for option in 0..=255 {
            assert_eq!(is_4(line(kind, 0, 0, option, count)), option > limits[kind], "kind {kind} option {option}");
        }
        for children in 0..=9 {
            assert_eq!(is_4(line(kind, 1, 1, 0, children)), !counts[kind].contains(&children), "kind {kind}");
        }
        assert!(is_4(line(kind, 2, 0, 0, count)) && is_4(line(kind, 0, 2, 0, count)));
    }
    for kind in 25..=255 {
        assert!(is_4(line(kind, 0, 0, 0, 1)));
    }
    assert!(is_4(line(16, 0, 0, 1, 1)) && !is_4(line(16, 0, 0, 1, 2)));
}

#[test]
fn options_and_counts_of_steps() {
    // Kind, then the limits of a, b, c, then the counts.
    let rows = [
        (0, [0, 0, 0], [0..=0, 0..=0, 0..=0]),
        (1, [0, 0, 0], [0..=8, 0..=0, 0..=0]),
        (2, [1, 1, 0], [1..=1, 0..=0, 0..=0]),
        (3, [0, 0, 0], [1..=1, 0..=8, 0..=0]),
        (4, [255, 0, 0], [1..=1, 0..=8, 0..=0]),
        (5, [1, 1, 0], [1..=1, 0..=8, 0..=0]),
        (6, [0, 0, 0], [1..=1, 1..=1, 0..=0]),
        (7, [1, 7, 0], [1..=1, 0..=8, 0..=8]),
        (8, [1, 1, 3], [1..=1, 0..=0, 0..=0]),
        (9, [3, 4, 0], [2..=2, 0..=8, 0..=8]),
        (10, [0, 0, 0], [2..=2, 0..=0, 0..=0]),
        (11, [1, 1, 0], [0..=8, 0..=0, 0..=0]),
        (12, [1, 0, 0], [2..=2, 0..=0, 0..=0]),
        (13, [7, 0, 0], [1..=1, 0..=0, 0..=0]),
        (14, [0, 0, 0], [0..=8, 0..=0, 0..=0]),
        (15, [0, 0, 0], [1..=1, 0..=0, 0..=0]),
        (16, [0, 0, 0], [1..=8, 0..=0, 0..=0]),
        (17, [0, 0, 0], [1..=1, 0..=0, 0..=0]),
        (18, [255, 0, 0], [1..=1, 0..=0, 0..=0]),
    ];
    let is_4 = |kind: usize, options: [usize; 3], counts: [usize; 3]| {
        let numbers = [vec![kind], options.to_vec(), counts.to_vec(), vec![0; counts.iter().sum()]].concat();
        let numbers: Vec<String> = numbers.iter().map(usize::to_string).collect();
        refusal(format!("P,{}\n", numbers.join(",")).as_bytes()) == 4
    };

    for (kind, limits, ranges) in rows {
        let least = ranges.clone().map(|range| *range.start());
        for option in 0..3 {
            for value in 0..=255 {
                let mut options = [0; 3];
                options[option] = value;
                assert_eq!(is_4(kind, options, least), value > limits[option], "kind {kind} {options:?}");
            }
        }
        for list in 0..3 {
            for count in 0..=10 {
                let mut counts = least;
                counts[list] = count;
                assert_eq!(is_4(kind, [0; 3], counts), !ranges[list].contains(&count), "kind {kind} {counts:?}");
            }
        }
    }
    for kind in 19..=255 {
        assert!(is_4(kind, [0; 3], [1, 0, 0]));
    }
    for keys in 0..=10 {
        assert_eq!(is_4(2, [0, 1, 0], [1, keys, 0]), keys > 8);
    }
}

#[test]
fn only_a_group_by_has_agg_entries() {
    let full = COLUMN.repeat(128);
    // Keys of a Join take no room; aggs do, scalar or not, at their own line.
    refused(8, &format!("{full}{SCAN}{SCAN}P,9,0,0,0,2,0,1,0,1,0\nP,2,0,0,0,1,0,0,2\n"));
    refused(5, &format!("{full}{SCAN}P,7,0,0,0,1,0,1,0,0\nx\n"));
    refused(5, &format!("{}{SCAN}P,7,0,0,0,1,0,1,0,0\n", full.replace("E,0,0", "E,0,1")));
}

#[test]
fn references() {
    refused(7, &format!("E,7,0,1,0,0\n{SCAN}{SINK}"));
    refused(7, &format!("E,7,0,1,0,1\n{COLUMN}{SCAN}P,3,0,0,0,1,1,0,0,0\nP,2,0,0,0,1,0,0,1\n"));
    refused(7, &format!("{SCAN}P,2,0,0,0,1,0,0,1\n"));
    refused(7, &format!("{SCAN}P,2,0,0,0,1,0,0,2\n"));
    refused(7, &format!("{SCAN}P,3,0,0,0,1,1,0,0,0\nP,2,0,0,0,1,0,0,1\n"));
    refused(7, &format!("{SCAN}{SINK}P,2,0,0,0,1,0,0,1\n"));
}

#[test]
fn uses() {
    // An E line unnamed, named twice by one list, by two steps, by a line and a step, by one line.
    refused(8, &format!("{COLUMN}{SCAN}{SINK}"));
    refused(12, &format!("{COLUMN}{SCAN}P,3,0,0,0,1,2,0,0,0,0\nP,2,0,0,0,1,0,0,1\n"));
    refused(12, &format!("{COLUMN}{SCAN}P,3,0,0,0,1,1,0,0,0\nP,3,0,0,0,1,1,0,1,0\nP,2,0,0,0,1,0,0,2\n"));
    refused(12, &format!("{COLUMN}E,7,0,1,0,0\n{SCAN}P,3,0,0,0,1,2,0,0,0,1\nP,2,0,0,0,1,0,0,1\n"));
    refused(12, &format!("{COLUMN}E,5,0,1,0,0,0\n{SCAN}P,3,0,0,0,1,1,0,0,1\nP,2,0,0,0,1,0,0,1\n"));
    // A step unnamed or named twice; a sheet without a Sink.
    refused(8, &format!("{SCAN}{SCAN}{SINK}"));
    refused(12, &format!("{SCAN}{SINK}{SINK}"));
    refused(8, SCAN);
    // A Cache unnamed.
    refused(8, &format!("{SCAN}P,18,1,0,0,1,0,0,0\n"));
}

#[test]
fn the_first_line_named_wrongly_decides() {
    let select = |entries: &str| format!("{COLUMN}{COLUMN}{SCAN}P,3,0,0,0,1,2,0,0,{entries}\nP,2,0,0,0,1,0,0,1\n");
    refused(0, &select("0,1"));
    refused(12, &select("0,0"));
    refused(8, &select("1,1"));
    // An E line before any P line, whichever of the two is unused and whichever used twice.
    refused(12, &format!("{COLUMN}{SCAN}{SCAN}P,3,0,0,0,1,2,0,0,0,0\nP,2,0,0,0,1,0,0,2\n"));
    refused(8, &format!("{COLUMN}{SCAN}{SINK}{SINK}"));
    // Among P lines by index.
    refused(12, &format!("{SCAN}{SCAN}{SINK}{SINK}"));
    refused(8, &format!("{SCAN}{SCAN}P,2,0,0,0,1,0,0,1\nP,2,0,0,0,1,0,0,1\n"));
}

#[test]
fn ids_of_caches() {
    let sinks = "P,2,0,0,0,1,0,0,2\nP,2,0,0,0,1,0,0,3\n";
    // One over the other; over two Scans; over a common Cache; over a common Scan, which is then named twice.
    refused(13, &format!("{SCAN}P,18,1,0,0,1,0,0,0\nP,18,1,0,0,1,0,0,1\nP,2,0,0,0,1,0,0,2\n"));
    refused(13, &format!("{SCAN}{SCAN}P,18,1,0,0,1,0,0,0\nP,18,1,0,0,1,0,0,1\n{sinks}"));
    refused(13, &format!("{SCAN}P,18,2,0,0,1,0,0,0\nP,18,1,0,0,1,0,0,1\nP,18,1,0,0,1,0,0,1\n{sinks}"));
    refused(12, &format!("{SCAN}P,18,1,0,0,1,0,0,0\nP,18,1,0,0,1,0,0,0\nP,2,0,0,0,1,0,0,1\nP,2,0,0,0,1,0,0,2\n"));
    // After 8 and 12, before 9.
    let caches = "P,18,1,0,0,1,0,0,0\nP,18,1,0,0,1,0,0,1\n";
    refused(8, &format!("{SCAN}{caches}{SCAN}P,2,0,0,0,1,0,0,2\n"));
    refused(13, &format!("E,3,0,1,0\n{SCAN}{caches}P,3,0,0,0,1,1,0,2,0\nP,2,0,0,0,1,0,0,3\n"));
}

#[test]
fn a_cache_may_be_named_often() {
    let cache = format!("{SCAN}P,18,255,0,0,1,0,0,0\n");
    refused(0, &format!("{cache}P,11,0,0,0,8,0,0,1,1,1,1,1,1,1,1\nP,2,0,0,0,1,0,0,2\nP,2,1,0,0,1,0,0,1\n"));
}

#[test]
fn struct_fields() {
    let sheet = |exprs: &str| {
        let root = exprs.lines().count() - 1;
        format!("{exprs}{SCAN}P,3,0,0,0,1,1,0,0,{root}\nP,2,0,0,0,1,0,0,1\n")
    };
    // Alone; as the first child; as an evaluation child; deeper under one.
    refused(9, &sheet("E,3,0,1,0\n"));
    refused(9, &sheet("E,3,0,1,0\nE,15,0,1,0,0\n"));
    refused(0, &sheet("E,0,0,1,0\nE,3,0,1,0\nE,15,0,1,0,0,1\n"));
    refused(0, &sheet("E,0,0,1,0\nE,3,0,1,0\nE,7,0,1,0,1\nE,15,0,1,0,0,2\n"));
    // Under the first child of an inner StructEval that is an evaluation child of an outer one.
    refused(0, &sheet("E,0,0,1,0\nE,3,0,1,0\nE,15,0,1,0,1\nE,15,0,1,0,0,2\n"));
    // Under an evaluation child of Eval, which is none of StructEval.
    refused(9, &sheet("E,0,0,1,0\nE,3,0,1,0\nE,14,0,1,0,0,1\n"));
}

#[test]
fn references_come_before_uses_and_uses_before_struct_fields() {
    refused(7, &format!("E,3,0,1,0\nE,7,0,1,0,9\n{SCAN}{SINK}"));
    refused(8, &format!("E,3,0,1,0\n{SCAN}{SINK}"));
}
