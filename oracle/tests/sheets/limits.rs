//! The limits of a sheet and of the output, each on both of its sides.
use crate::{answer, lines, refusal};

const COLUMN: &str = "E,0,0,1,0\n";
const SCAN: &str = "P,0,0,0,0,0,0,0\n";

/// A Scan, one Select for each eight of so many columns, a Sink.
fn selects(columns: usize) -> String {
    let mut sheet = COLUMN.repeat(columns) + SCAN;
    let mut step = 0;
    for first in (0..columns).step_by(8) {
        let entries: Vec<String> = (first..columns.min(first + 8)).map(|entry| entry.to_string()).collect();
        sheet += &format!("P,3,0,0,0,1,{},0,{step},{}\n", entries.len(), entries.join(","));
        step += 1;
    }
    sheet + &format!("P,2,0,0,0,1,0,0,{step}\n")
}

/// A Scan, a GroupBy with so many aggs that are no scalars, a Sink; the other columns in Selects between.
fn aggs(columns: usize, aggs: usize) -> String {
    let mut sheet = selects(columns - aggs);
    sheet.insert_str(0, &COLUMN.repeat(aggs));
    let last = sheet.lines().filter(|line| line.starts_with('P')).count() - 1;
    let sink = sheet.rfind("P,2,").unwrap();
    sheet.truncate(sink);

    let entries: Vec<String> = (columns - aggs..columns).map(|entry| entry.to_string()).collect();
    sheet += &format!("P,7,0,0,0,1,0,{aggs},{},{}\n", last - 1, entries.join(","));
    sheet + &format!("P,2,0,0,0,1,0,0,{last}\n")
}

/// A Scan, SimpleProjections, a Sink: so many steps in all.
fn chain(steps: usize) -> String {
    let mut sheet = SCAN.to_string();
    for input in 0..steps - 2 {
        sheet += &format!("P,17,0,0,0,1,0,0,{input}\n");
    }
    sheet + &format!("P,2,0,0,0,1,0,0,{}\n", steps - 2)
}

#[test]
fn expressions() {
    assert_eq!(refusal(selects(128).as_bytes()), 0);
    assert_eq!(refusal(selects(129).as_bytes()), 5);
}

#[test]
fn expressions_with_agg_entries() {
    let finished = answer(&aggs(120, 8));
    assert_eq!(lines(&finished, 'E').len(), 128);
    assert_eq!(refusal(aggs(121, 8).as_bytes()), 5);
}

#[test]
fn steps() {
    assert_eq!(refusal(chain(32).as_bytes()), 0);
    assert_eq!(refusal(chain(33).as_bytes()), 5);
}

#[test]
fn length_of_the_sheet() {
    assert_eq!(refusal(&[b'x'; 16_384]), 3);
    assert_eq!(refusal(&[b'x'; 16_385]), 2);
}

#[test]
fn length_of_the_output() {
    let sheet = chain(2);
    assert!(oracle::finish(sheet.as_bytes(), 16_384).is_ok());
    assert_eq!(oracle::finish(sheet.as_bytes(), 16_383), Err(1));
    assert_eq!(oracle::finish(sheet.as_bytes(), 0), Err(1));
    assert_eq!(oracle::finish(&[b'x'; 16_385], 16_383), Err(1));
}

#[test]
fn the_most_looks() {
    // A chain of 127 elementwise Functions over a Column: 128 x 131 / 2 looks at each of two visits.
    let mut exprs = COLUMN.to_string();
    for child in 0..127 {
        exprs += &format!("E,19,0,1,3,{child}\n");
    }
    let finished = answer(&format!("{exprs}{SCAN}P,3,0,0,0,1,1,0,0,127\nP,2,0,0,0,1,0,0,1\n"));
    assert_eq!(lines(&finished, 'T'), ["T,0,6,16768"]);
}
