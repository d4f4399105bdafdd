//! Feeding written a second time, on rows as values, and what tests need to make tables and texts.
#![allow(dead_code)]
use terntrolley::Refused;

/// One row: what it shows, and where each byte leads.
pub struct ModelRow {
    pub bits: u32,
    pub to: Vec<u32>,
}

/// The rows that the words are, if they are a table of so many.
pub fn model_rows(words: &[u32], rows: usize) -> Option<Vec<ModelRow>> {
    if words.len() as u128 != 257 * rows as u128 {
        return None;
    }
    let all: Vec<ModelRow> = words
        .chunks(257)
        .map(|row| ModelRow {
            bits: row[0],
            to: row[1..].to_vec(),
        })
        .collect();
    let inside = all
        .iter()
        .all(|row| row.to.iter().all(|&j| (j as usize) < rows));
    inside.then_some(all)
}

/// What feeding must answer: the row after the piece and the bits after each byte.
pub fn model_feed(
    words: &[u32],
    rows: usize,
    row: usize,
    piece: &[u8],
    room: usize,
) -> Result<(usize, Vec<u32>), Refused> {
    let all = model_rows(words, rows).ok_or(Refused::NoTable)?;
    if row >= rows {
        return Err(Refused::NoTable);
    }
    if room < piece.len() {
        return Err(Refused::Full);
    }
    let mut at = row;
    let mut bits = Vec::new();
    for &byte in piece {
        at = all[at].to[usize::from(byte)] as usize;
        bits.push(all[at].bits);
    }
    Ok((at, bits))
}

/// Numbers that look random and are the same in every run (splitmix64).
pub struct Random(pub u64);

impl Random {
    pub fn number(&mut self) -> u64 {
        self.0 = self.0.wrapping_add(0x9e37_79b9_7f4a_7c15);
        let mut z = self.0;
        z = (z ^ (z >> 30)).wrapping_mul(0xbf58_476d_1ce4_e5b9);
        z = (z ^ (z >> 27)).wrapping_mul(0x94d0_49bb_1331_11eb);
        z ^ (z >> 31)
    }

    pub fn below(&mut self, n: usize) -> usize {
        (self.number() % n as u64) as usize
    }

    pub fn text(&mut self, len: usize) -> Vec<u8> {
        (0..len).map(|_| self.number() as u8).collect()
    }

    /// A sound table: any bits, any rows to go to.
    pub fn table(&mut self, rows: usize) -> Vec<u32> {
        (0..257 * rows)
            .map(|p| {
                if p % 257 == 0 {
                    self.number() as u32
                } else {
                    self.below(rows) as u32
                }
            })
            .collect()
    }
}
