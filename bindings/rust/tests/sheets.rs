//! Case A, its papers, and a sheet for each refusal.
use simplify_ordering::{finish, finish_into, mark, mark_into, Refusal, Verdict, LEAST_OUTPUT, LONGEST_SHEET};

const CASE_A: &[u8] = b"\
E,0,0,1,0
P,0,0,0,0,0,0,0
P,5,1,0,0,1,1,0,0,0
P,2,0,0,0,1,0,0,1
";

const FINISHED_A: &[u8] = b"\
E,0,0,1,0
P,0,0,0,0,0,0,0
P,5,1,0,0,1,1,0,0,0
P,2,0,0,0,1,0,0,0
G,2,0,0
G,1,0,0
T,1,5,0
";

const STEPS_A: &[u8] = b"P,0,0,0,0,0,0,0\nP,5,1,0,0,1,1,0,0,0\nP,2,0,0,0,1,0,0,0\n";
/// The edge into the removed sort is not examined.
const EDGES_A: &[u8] = b"G,2,0,0\n";

fn paper_a() -> Vec<u8> {
    [STEPS_A, EDGES_A].concat()
}

/// No finished sheet has it.
const FILL: u8 = 170;

/// A sheet that is refused by the number, with an output that is long enough; 1 is about the output alone.
fn refused_sheet(refusal: Refusal) -> Vec<u8> {
    let scan = "P,0,0,0,0,0,0,0\n";
    let sink = |input| format!("P,2,0,0,0,1,0,0,{input}\n");
    let text = match refusal {
        Refusal::Output => return CASE_A.to_vec(),
        Refusal::Length => return vec![b'E'; LONGEST_SHEET + 1],
        Refusal::Form => format!("P,0,0,0,0, 0,0,0\n{}", sink(0)),
        Refusal::Table => "E,25,0,1,0\n".to_string(),
        Refusal::Room => scan.repeat(33),
        Refusal::NoStep => String::new(),
        Refusal::Reference => format!("{}{scan}", sink(1)),
        Refusal::Unused => format!("{scan}{scan}{}", sink(0)),
        Refusal::Reused => format!("{scan}{}{}", sink(0), sink(0)),
        Refusal::CacheId => format!("{scan}P,18,5,0,0,1,0,0,0\nP,18,5,0,0,1,0,0,1\n{}", sink(2)),
        Refusal::StructField => format!("E,3,0,1,0\n{scan}P,3,0,0,0,1,1,0,0,0\n{}", sink(1)),
        Refusal::Join => format!("E,0,0,1,0\nE,8,0,0,0,0\n{scan}{scan}P,9,0,0,0,2,1,0,0,1,1\n{}", sink(2)),
        Refusal::PartitionedSink => format!("E,0,0,1,0\nE,8,0,0,0,0\n{scan}P,2,1,1,0,1,1,0,0,1\n"),
        other => panic!("no sheet for {other}"),
    };
    text.into_bytes()
}

fn lent_for(refusal: Refusal) -> usize {
    if refusal == Refusal::Output {
        LEAST_OUTPUT - 1
    } else {
        LEAST_OUTPUT
    }
}

#[test]
fn case_a() {
    assert_eq!(finish(CASE_A).as_deref(), Ok(FINISHED_A));
    assert_eq!(mark(CASE_A, &paper_a()), Ok(Verdict::Right));
}

#[test]
fn other_papers_are_wrong() {
    let paper = paper_a();
    let no_last_line_end = &paper[..paper.len() - 1];
    let steps_as_sent = [&CASE_A[b"E,0,0,1,0\n".len()..], EDGES_A].concat();
    let ordered = [STEPS_A, b"G,2,0,1\n"].concat();
    let with_the_removed = [STEPS_A, b"G,2,0,0\nG,1,0,0\n"].concat();
    let edges_first = [EDGES_A, STEPS_A].concat();
    let papers: [&[u8]; 9] = [
        b"",
        no_last_line_end,
        EDGES_A,
        STEPS_A,
        &steps_as_sent,
        &ordered,
        &with_the_removed,
        &edges_first,
        FINISHED_A,
    ];
    for paper in papers {
        assert_eq!(mark(CASE_A, paper), Ok(Verdict::Wrong), "{}", paper.escape_ascii());
    }
}

#[test]
fn the_bytes_behind_the_finished_sheet_stay() {
    let length = FINISHED_A.len();
    let mut out = vec![FILL; LEAST_OUTPUT + 1];
    assert_eq!(finish_into(CASE_A, &mut out), Ok(length));
    assert_eq!(&out[..length], FINISHED_A);
    assert!(out[length..].iter().all(|&byte| byte == FILL));

    let finished = out.clone();
    out.fill(FILL);
    assert_eq!(mark_into(CASE_A, &paper_a(), &mut out), Ok(Verdict::Right));
    assert_eq!(out, finished);
}

#[test]
fn each_refusal_alters_no_byte() {
    for &refusal in Refusal::ALL {
        let sheet = refused_sheet(refusal);
        let mut out = vec![FILL; lent_for(refusal)];
        assert_eq!(finish_into(&sheet, &mut out), Err(refusal));
        assert_eq!(mark_into(&sheet, &paper_a(), &mut out), Err(refusal));
        assert!(out.iter().all(|&byte| byte == FILL));
        if refusal != Refusal::Output {
            assert_eq!(finish(&sheet), Err(refusal));
            assert_eq!(mark(&sheet, &paper_a()), Err(refusal));
        }
    }
}

#[test]
fn an_empty_output_and_an_empty_sheet() {
    assert_eq!(finish_into(CASE_A, &mut []), Err(Refusal::Output));
    assert_eq!(mark_into(&[], &[], &mut []), Err(Refusal::Output));
    assert_eq!(finish(&[]), Err(Refusal::NoStep));
}

#[test]
fn refusals_by_number() {
    let numbers: Vec<u8> = Refusal::ALL.iter().map(|refusal| refusal.number()).collect();
    assert_eq!(numbers, [1, 2, 3, 4, 5, 6, 7, 8, 12, 13, 9, 10, 11]);
    for &refusal in Refusal::ALL {
        assert_eq!(Refusal::of_number(refusal.number()), Some(refusal));
    }
    assert_eq!(Refusal::of_number(0), None);
    assert_eq!(Refusal::of_number(255), None);
    assert_eq!(Refusal::NoStep.to_string(), "refused by 6: there is no P line");
}
