//! Tables that were validated, and their rows.
use crate::Refused;
use crate::exports::{answer, terntrolley_feed, terntrolley_feed_valid, terntrolley_validate};

/// A row's number.
#[derive(Clone, Copy, Debug, PartialEq, Eq, PartialOrd, Ord, Hash)]
pub struct Row(pub usize);

/// A borrowed table that was found sound: 257 words to a row, and no row leads out of it. Only validation makes one.
#[derive(Clone, Copy, Debug)]
pub struct Table<'a> {
    words: &'a [u32],
    rows: usize,
}

impl<'a> Table<'a> {
    /// Looks at each word once.
    pub fn new(words: &'a [u32], rows: usize) -> Result<Table<'a>, Refused> {
        // SAFETY: the pointer and the length are those of a slice, which the call only reads.
        let code = unsafe { terntrolley_validate(words.as_ptr(), words.len(), rows) };
        answer(code)?;
        Ok(Table { words, rows })
    }

    /// How many rows there are.
    pub fn rows(&self) -> usize {
        self.rows
    }

    /// Reads a piece from a row, and gives the row after it; the bits after each byte go to the front of `ends`. What
    /// it costs depends on the piece alone.
    pub fn feed(&self, row: Row, piece: &[u8], ends: &mut [u32]) -> Result<Row, Refused> {
        if row.0 >= self.rows {
            return Err(Refused::NoTable);
        }
        let mut next = row.0;
        // SAFETY: the pointers and lengths are those of slices, of which the written one overlaps no other. Validation
        // answered that the words are a table of these rows, they are borrowed since, and the row is one of them.
        let code = unsafe {
            terntrolley_feed_valid(
                self.words.as_ptr(),
                self.words.len(),
                self.rows,
                row.0,
                piece.as_ptr(),
                piece.len(),
                ends.as_mut_ptr(),
                ends.len(),
                &mut next,
            )
        };
        answer(code)?;
        Ok(Row(next))
    }
}

/// Reads a piece from a row of any numbers lent as a table, all of which it looks at each time.
pub fn feed(
    words: &[u32],
    rows: usize,
    row: Row,
    piece: &[u8],
    ends: &mut [u32],
) -> Result<Row, Refused> {
    let mut next = row.0;
    // SAFETY: the pointers and lengths are those of slices, of which the written one overlaps no other.
    let code = unsafe {
        terntrolley_feed(
            words.as_ptr(),
            words.len(),
            rows,
            row.0,
            piece.as_ptr(),
            piece.len(),
            ends.as_mut_ptr(),
            ends.len(),
            &mut next,
        )
    };
    answer(code)?;
    Ok(Row(next))
}
