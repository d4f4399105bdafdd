//! However a text is cut, its pieces say together what the text says.
mod support;

use support::{Random, model_feed};
use terntrolley::{Refused, Row, Stream, Table};

/// Feeds the pieces one after the other: the last row, and all bits joined.
fn in_pieces<'t>(
    table: Table<'_>,
    row: usize,
    pieces: impl Iterator<Item = &'t [u8]>,
) -> (usize, Vec<u32>) {
    let mut stream = Stream::new(table, Row(row)).unwrap();
    let mut bits = Vec::new();
    for piece in pieces {
        let mut ends = vec![0; piece.len()];
        stream.feed(piece, &mut ends).unwrap();
        bits.append(&mut ends);
    }
    (stream.row().0, bits)
}

/// The pieces of a text that is cut behind each byte whose bit is set, with an empty piece at each cut if asked for.
fn cut(text: &[u8], cuts: usize, empties: bool) -> Vec<&[u8]> {
    let mut pieces = Vec::new();
    let mut from = 0;
    for i in 1..=text.len() {
        if i == text.len() || cuts >> (i - 1) & 1 == 1 {
            pieces.push(&text[from..i]);
            if empties {
                pieces.push(&text[i..i]);
            }
            from = i;
        }
    }
    pieces
}

#[test]
fn every_cutting_of_short_texts() {
    let mut random = Random(11);
    for len in 0..=10 {
        let words = random.table(9);
        let table = Table::new(&words, 9).unwrap();
        let text = random.text(len);
        let row = random.below(9);
        let whole = model_feed(&words, 9, row, &text, len).unwrap();
        for cuts in 0..1usize << len.saturating_sub(1) {
            for empties in [false, true] {
                let pieces = cut(&text, cuts, empties);
                assert_eq!(pieces.concat(), text);
                assert_eq!(in_pieces(table, row, pieces.into_iter()), whole);
            }
        }
    }
}

#[test]
fn a_long_text_in_pieces_of_each_length() {
    let mut random = Random(12);
    for rows in [2, 64, 1024] {
        let words = random.table(rows);
        let table = Table::new(&words, rows).unwrap();
        let text = random.text(3 * 4096 + 17);
        let whole = model_feed(&words, rows, 0, &text, text.len()).unwrap();
        for len in [1, 2, 63, 4096, text.len()] {
            assert_eq!(in_pieces(table, 0, text.chunks(len)), whole);
        }
    }
}

#[test]
fn pieces_of_mixed_lengths() {
    let mut random = Random(13);
    let words = random.table(50);
    let table = Table::new(&words, 50).unwrap();
    for _ in 0..60 {
        let text = random.text(9000);
        let whole = model_feed(&words, 50, 7, &text, text.len()).unwrap();
        let mut pieces = Vec::new();
        let mut rest = &text[..];
        while !rest.is_empty() {
            let len = [0, 1, 2, 63, 4096][random.below(5)].min(rest.len());
            let (piece, behind) = rest.split_at(len);
            pieces.push(piece);
            rest = behind;
        }
        assert_eq!(in_pieces(table, 7, pieces.into_iter()), whole);
    }
}

#[test]
fn a_refused_piece_leaves_the_stream_where_it_was() {
    let mut random = Random(14);
    let words = random.table(6);
    let mut stream = Stream::new(Table::new(&words, 6).unwrap(), Row(4)).unwrap();
    let mut ends = [7; 2];
    assert_eq!(stream.feed(b"abc", &mut ends), Err(Refused::Full));
    assert_eq!((stream.row(), ends), (Row(4), [7; 2]));
    assert_eq!(stream.feed(b"", &mut ends), Ok(()));
    assert_eq!((stream.row(), ends), (Row(4), [7; 2]));
}
