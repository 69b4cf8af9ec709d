//! Many sheets in one stream: each is followed by `---` and byte 10.
//!
//! The mark ends a sheet wherever it stands, at the start of a line or not, so a sheet may lack its last byte 10 and
//! may be empty. A sheet that holds these four bytes itself can't be carried. What follows the last mark is one more
//! sheet, unless it is empty.

pub const MARK: &[u8] = b"---\n";

/// The sheets of a batch.
pub fn sheets(mut batch: &[u8]) -> impl Iterator<Item = &[u8]> {
    std::iter::from_fn(move || {
        if batch.is_empty() {
            return None;
        }
        let (sheet, rest) = match mark_place(batch) {
            Some(place) => (&batch[..place], &batch[place + MARK.len()..]),
            None => (batch, &[][..]),
        };
        batch = rest;
        Some(sheet)
    })
}

/// Whether a batch can carry the sheet.
pub fn can_carry(sheet: &[u8]) -> bool {
    mark_place(sheet).is_none()
}

fn mark_place(bytes: &[u8]) -> Option<usize> {
    bytes.windows(MARK.len()).position(|window| window == MARK)
}
