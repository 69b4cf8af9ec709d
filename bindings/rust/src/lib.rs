//! Finishing a sheet, marking a paper against it, and converting a formula to E lines, by the static library that `scripts/library`
//! makes from proved code. `include/simplify_ordering.h` has the same three calls for C, and says how much stack they take.
//!
//! ```
//! let sheet = b"P,0,0,0,0,0,0,0\nP,2,0,0,0,1,0,0,0\n";
//! let finished = simplify_ordering::finish(sheet)?;
//! assert!(finished.ends_with(b"G,1,0,0\nT,0,4,0\n"));
//! let paper = b"P,0,0,0,0,0,0,0\nP,2,0,0,0,1,0,0,0\nG,1,0,0\n";
//! assert_eq!(simplify_ordering::mark(sheet, paper)?, simplify_ordering::Verdict::Right);
//! # Ok::<(), simplify_ordering::Refusal>(())
//! ```
mod formula_refusal;
mod refusal;

pub use formula_refusal::FormulaRefusal;
pub use refusal::Refusal;

/// The longest sheet that is read.
pub const LONGEST_SHEET: usize = 16_384;
/// The longest formula that is read.
pub const LONGEST_FORMULA: usize = 16_384;
/// The least output that has to be lent. No finished sheet is longer, nor are the E lines of a formula.
pub const LEAST_OUTPUT: usize = 16_384;

/// What a paper is, if its sheet is finished.
#[derive(Clone, Copy, Debug, PartialEq, Eq, Hash)]
pub enum Verdict {
    /// Its bytes are the P lines of the finished sheet and then its G lines but for those whose consumer is a sort that was removed,
    /// each ended by byte 10.
    Right,
    /// It is anything else.
    Wrong,
}

const FINISHED: u8 = 0;
const CONVERTED: u8 = 0;
const RIGHT: u8 = 0;
const WRONG: u8 = 255;

// As include/simplify_ordering.h declares them.
extern "C" {
    fn simplify_ordering_finish(
        sheet: *const u8,
        sheet_length: usize,
        out: *mut u8,
        out_length: usize,
        finished: *mut usize,
    ) -> u8;

    fn simplify_ordering_mark(
        sheet: *const u8,
        sheet_length: usize,
        paper: *const u8,
        paper_length: usize,
        out: *mut u8,
        out_length: usize,
    ) -> u8;

    fn simplify_ordering_formula(
        formula: *const u8,
        formula_length: usize,
        out: *mut u8,
        out_length: usize,
        converted: *mut usize,
    ) -> u8;
}

/// The finished sheet.
pub fn finish(sheet: &[u8]) -> Result<Vec<u8>, Refusal> {
    let mut out = vec![0; LEAST_OUTPUT];
    let length = finish_into(sheet, &mut out)?;
    out.truncate(length);
    Ok(out)
}

/// Writes the finished sheet to the front of `out` and gives its length; the bytes behind it are as they were. If the sheet is
/// refused, every byte is as it was.
pub fn finish_into(sheet: &[u8], out: &mut [u8]) -> Result<usize, Refusal> {
    let mut length = usize::MAX;
    // Safe: no pointer of a slice is null, and the three places do not overlap, since `out` and `length` are borrowed alone.
    let number =
        unsafe { simplify_ordering_finish(sheet.as_ptr(), sheet.len(), out.as_mut_ptr(), out.len(), &mut length) };
    match number {
        FINISHED => Ok(length),
        _ => {
            assert_eq!(length, 0, "a refusal has no length");
            Err(refused(number))
        },
    }
}

/// Whether the paper is right.
pub fn mark(sheet: &[u8], paper: &[u8]) -> Result<Verdict, Refusal> {
    mark_into(sheet, paper, &mut [0; LEAST_OUTPUT])
}

/// As `mark`; unless the sheet is refused, the finished sheet then stands at the front of `out`, and ends with the byte 10 of its
/// T line. What is behind it is as it was.
pub fn mark_into(sheet: &[u8], paper: &[u8], out: &mut [u8]) -> Result<Verdict, Refusal> {
    // Safe: as above; the sheet and the paper are only read, and may overlap.
    let number = unsafe {
        simplify_ordering_mark(sheet.as_ptr(), sheet.len(), paper.as_ptr(), paper.len(), out.as_mut_ptr(), out.len())
    };
    match number {
        RIGHT => Ok(Verdict::Right),
        WRONG => Ok(Verdict::Wrong),
        _ => Err(refused(number)),
    }
}

/// The E lines of the formula, which is handed over without a line end.
///
/// ```
/// let lines = simplify_ordering::formula(b"a * (b + 2)")?;
/// assert_eq!(lines, b"E,0,0,1,0\nE,0,0,1,0\nE,1,1,0,0\nE,5,0,1,0,1,2\nE,5,0,1,0,0,3\n");
/// assert_eq!(simplify_ordering::formula(b"a <= b"), Err(simplify_ordering::FormulaRefusal::NoFormula));
/// # Ok::<(), simplify_ordering::FormulaRefusal>(())
/// ```
pub fn formula(formula: &[u8]) -> Result<Vec<u8>, FormulaRefusal> {
    let mut out = vec![0; LEAST_OUTPUT];
    let length = formula_into(formula, &mut out)?;
    out.truncate(length);
    Ok(out)
}

/// Writes the E lines of the formula to the front of `out` and gives their length; the bytes behind them are as they were. If the
/// formula is refused, every byte is as it was.
pub fn formula_into(formula: &[u8], out: &mut [u8]) -> Result<usize, FormulaRefusal> {
    let mut length = usize::MAX;
    // Safe: as in `finish_into`, with the formula for the sheet.
    let number =
        unsafe { simplify_ordering_formula(formula.as_ptr(), formula.len(), out.as_mut_ptr(), out.len(), &mut length) };
    match number {
        CONVERTED => Ok(length),
        _ => {
            assert_eq!(length, 0, "a refusal has no length");
            Err(FormulaRefusal::of_number(number).unwrap_or_else(|| unlisted(number)))
        },
    }
}

fn refused(number: u8) -> Refusal {
    Refusal::of_number(number).unwrap_or_else(|| unlisted(number))
}

/// The library has no number that is not listed; one that has is newer than this crate.
fn unlisted(number: u8) -> ! {
    panic!("the library refuses by {number}, which is not listed here")
}
