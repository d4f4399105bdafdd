//! Feeding through the library beside the model: random tables, damaged tables, and every length that matters.
mod support;

use support::{Random, model_feed};
use terntrolley::{Refused, Row, Stream, Table, feed};

const STALE: u32 = 0xdead_beef;

/// Feeds by both calls and compares answers, bits and what must stay with the model's.
fn compare(
    words: &[u32],
    rows: usize,
    row: usize,
    piece: &[u8],
    room: usize,
) -> Result<usize, Refused> {
    let expected = model_feed(words, rows, row, piece, room);
    let mut ends = vec![STALE; room];
    let plain = feed(words, rows, Row(row), piece, &mut ends);
    let mut valid_ends = vec![STALE; room];
    let valid =
        Table::new(words, rows).and_then(|table| table.feed(Row(row), piece, &mut valid_ends));
    assert_eq!(plain, valid);
    assert_eq!(ends, valid_ends);
    match &expected {
        Ok((after, bits)) => {
            assert_eq!(plain, Ok(Row(*after)));
            assert_eq!(&ends[..piece.len()], &bits[..]);
            assert!(
                ends[piece.len()..].iter().all(|&n| n == STALE),
                "numbers behind the piece's stay"
            );
        }
        Err(refused) => {
            assert_eq!(plain, Err(*refused));
            assert!(ends.iter().all(|&n| n == STALE), "a refusal writes nothing");
        }
    }
    expected.map(|(after, _)| after)
}

#[test]
fn random_tables_are_fed_as_the_model_says() {
    let mut random = Random(1);
    for round in 0..400 {
        let rows = 1 + random.below(if round % 20 == 0 { 300 } else { 12 });
        let words = random.table(rows);
        let len = random.below(200);
        let piece = random.text(len);
        let row = random.below(rows);
        let room = piece.len() + random.below(5);
        assert!(compare(&words, rows, row, &piece, room).is_ok());
    }
}

#[test]
fn pieces_of_every_length_that_matters() {
    let mut random = Random(2);
    for rows in [1, 2, 3, 64, 300] {
        let words = random.table(rows);
        for len in [0, 1, 2, 63, 4096] {
            let piece = random.text(len);
            for room in [len, len + 1, len + 70] {
                let row = random.below(rows);
                assert!(compare(&words, rows, row, &piece, room).is_ok());
            }
        }
    }
}

#[test]
fn bytes_and_rows_at_the_ends_of_their_ranges() {
    let mut random = Random(3);
    let words = random.table(5);
    for row in 0..5 {
        for byte in 0..=255 {
            assert!(compare(&words, 5, row, &[byte], 1).is_ok());
        }
    }
}

#[test]
fn too_little_room_is_full_and_writes_nothing() {
    let mut random = Random(4);
    let words = random.table(7);
    for len in [1, 2, 63, 4096] {
        let piece = random.text(len);
        for room in [0, 1, len / 2, len - 1] {
            if room < len {
                assert_eq!(compare(&words, 7, 3, &piece, room), Err(Refused::Full));
            }
        }
    }
}

#[test]
fn a_row_that_is_not_there_is_no_table() {
    let mut random = Random(5);
    let words = random.table(4);
    for row in [4, 5, 256, 257, usize::MAX] {
        assert_eq!(compare(&words, 4, row, b"ab", 2), Err(Refused::NoTable));
        assert_eq!(
            compare(&words, 4, row, b"ab", 0),
            Err(Refused::NoTable),
            "no table comes before full"
        );
        let table = Table::new(&words, 4).unwrap();
        assert!(Stream::new(table, Row(row)).is_err());
    }
}

#[test]
fn a_length_or_a_number_of_rows_that_does_not_fit_is_no_table() {
    let mut random = Random(6);
    let words = random.table(6);
    for cut in [1, 2, 256, 257] {
        assert_eq!(
            compare(&words[..words.len() - cut], 6, 0, b"a", 1),
            Err(Refused::NoTable)
        );
        let mut longer = words.clone();
        longer.resize(words.len() + cut, 0);
        assert_eq!(compare(&longer, 6, 0, b"a", 1), Err(Refused::NoTable));
    }
    // some of these times 257 wrap around to a length that is there
    let inverse = (0..64).fold(1usize, |x, _| {
        x.wrapping_mul(2usize.wrapping_sub(x.wrapping_mul(257)))
    });
    assert_eq!(inverse.wrapping_mul(257), 1);
    let wrapping = inverse.wrapping_mul(words.len() + 1);
    for rows in [
        0,
        5,
        7,
        usize::MAX / 257,
        usize::MAX / 257 + 1,
        usize::MAX,
        wrapping,
        inverse,
    ] {
        assert_eq!(compare(&words, rows, 0, b"a", 1), Err(Refused::NoTable));
    }
    let mut one_more = words.clone();
    one_more.push(0);
    assert_eq!(
        compare(&one_more, wrapping, 0, b"a", 1),
        Err(Refused::NoTable)
    );
    assert_eq!(
        compare(&[], 0, 0, b"", 0),
        Err(Refused::NoTable),
        "no rows, so none to begin with"
    );
    assert!(Table::new(&[], 0).is_ok(), "no rows lead nowhere");
}

#[test]
fn a_row_to_go_to_that_is_not_there_is_no_table() {
    let mut random = Random(7);
    for rows in [1, 2, 5, 40] {
        let words = random.table(rows);
        let last = 257 * rows - 1;
        for place in [1, 256, last, last - 255, 1 + random.below(256)] {
            for wrong in [rows as u32, rows as u32 + 1, 1 << 31, u32::MAX] {
                let mut damaged = words.clone();
                damaged[place] = wrong;
                assert_eq!(compare(&damaged, rows, 0, b"a", 1), Err(Refused::NoTable));
                assert_eq!(Table::new(&damaged, rows).unwrap_err(), Refused::NoTable);
            }
        }
        let mut shown = words.clone();
        shown[257 * (rows - 1)] = u32::MAX;
        assert!(
            compare(&shown, rows, 0, b"a", 1).is_ok(),
            "what a row shows may be any number"
        );
    }
}

#[test]
fn every_single_damaged_cell_is_found() {
    let mut random = Random(8);
    let words = random.table(3);
    for place in 0..words.len() {
        let mut damaged = words.clone();
        damaged[place] = 3;
        assert_eq!(Table::new(&damaged, 3).is_ok(), place % 257 == 0);
    }
}
