//! The library's call for a formula, as C sees it.
// The crate links the library.
use simplify_ordering as _;

unsafe extern "C" {
    fn simplify_ordering_formula(
        formula: *const u8,
        formula_length: usize,
        out: *mut u8,
        out_length: usize,
        length: *mut usize,
    ) -> u8;
}

/// 0 or the number of the refusal, and the length of the lines.
#[derive(Debug, PartialEq, Eq)]
pub struct Answer {
    pub number: u8,
    pub length: usize,
}

pub fn convert(formula: &[u8], out: &mut [u8]) -> Answer {
    let mut length = usize::MAX;
    // Safe: no pointer of a slice is null, and the three places do not overlap, since `out` and `length` are borrowed alone.
    let number =
        unsafe { simplify_ordering_formula(formula.as_ptr(), formula.len(), out.as_mut_ptr(), out.len(), &mut length) };
    Answer { number, length }
}
