//! `RowFeed`: rows from data in pieces are those of a `RowReader` of the whole, and come as soon as they are known.

#[macro_use]
mod common;

use common::{Case, Panicking, Random, Reading, long_data, random_data, stored_cases, strips};
use hayro_ccitt::{DecodeError, DecodeSettings, Decoder, EncodingMode, Fed, FeedError, RowFeed};
use std::panic::{AssertUnwindSafe, catch_unwind};

/// A row of eight pixels with the changes 3 and 5, in Group 4, and EOFB.
const CLOSED: [u8; 5] = [0x31, 0xC0, 0x04, 0x00, 0x40];

fn settings(rows: u32) -> DecodeSettings {
    DecodeSettings {
        columns: 8,
        rows,
        end_of_block: true,
        end_of_line: false,
        rows_are_byte_aligned: false,
        encoding: EncodingMode::Group4,
        strict: false,
    }
}

fn feed_of(case: &Case) -> RowFeed {
    if case.is_low_first() {
        RowFeed::new_low_first(case.settings())
    } else {
        RowFeed::new(case.settings())
    }
}

/// How data is cut: the length of the next piece, for each piece.
enum Cuts {
    Every(usize),
    Random(Random),
}

impl Cuts {
    fn next(&mut self) -> usize {
        match self {
            Self::Every(length) => *length,
            // Some pieces are empty, and some long.
            Self::Random(random) => match random.below(8) {
                0 => random.below(3000),
                _ => random.below(12),
            },
        }
    }
}

/// Reads the rows of a case from its pieces, by a call that reads a row. Of each row, how many bytes had been fed is passed on.
fn in_pieces<T>(
    case: &Case,
    mut cuts: Cuts,
    read: impl Fn(&mut RowFeed) -> Result<Fed<Vec<T>>, FeedError>,
    mut seen: impl FnMut(&RowFeed, usize),
) -> Reading<T> {
    let (mut feed, mut fed, mut rows) = (feed_of(case), 0, Vec::new());
    let mut is_finished = false;
    loop {
        match read(&mut feed) {
            Ok(Fed::Row(row)) => {
                seen(&feed, fed);
                rows.push((row, told!(feed)));
            }
            Ok(Fed::NeedsMore) => {
                assert!(!is_finished, "{}", case.line());
                let length = cuts.next().min(case.data.len() - fed);
                feed.feed(&case.data[fed..fed + length]).unwrap();
                fed += length;
                if fed == case.data.len() {
                    feed.finish();
                    is_finished = true;
                }
            }
            end => {
                // It stays, and what wasn't consumed is there.
                let (again, unused) = (read(&mut feed), feed.unused());
                assert_eq!(unused, case.data[feed.bytes_read()..fed], "{}", case.line());
                let same = match (&end, &again) {
                    (Ok(Fed::End), Ok(Fed::End)) => true,
                    (Err(one), Err(other)) => one == other,
                    _ => false,
                };
                assert!(same, "{}", case.line());
                let end = match end {
                    Ok(_) => Ok(()),
                    Err(FeedError::Data(error)) => Err(error),
                    Err(error) => panic!("{error}: {}", case.line()),
                };
                return Reading {
                    rows,
                    end: (end, told!(feed)),
                };
            }
        }
    }
}

fn list(feed: &mut RowFeed) -> Result<Fed<Vec<u32>>, FeedError> {
    Ok(match feed.next_row()? {
        Fed::Row(row) => Fed::Row(row.to_vec()),
        Fed::NeedsMore => Fed::NeedsMore,
        Fed::End => Fed::End,
    })
}

fn pack(feed: &mut RowFeed) -> Result<Fed<Vec<u8>>, FeedError> {
    Ok(match feed.next_packed()? {
        Fed::Row(row) => Fed::Row(row.to_vec()),
        Fed::NeedsMore => Fed::NeedsMore,
        Fed::End => Fed::End,
    })
}

#[test]
fn pieces_have_the_rows_of_the_whole() {
    let (mut runs, mut faults) = (0, 0);
    let cases = [strips(), stored_cases(), random_data(), long_data()];
    for (at, case) in cases.into_iter().flatten().enumerate() {
        let (listed, packed) = (case.listed(), case.packed());
        for size in [1, 2, 3, 7, 64, 4096] {
            let found = in_pieces(&case, Cuts::Every(size), list, |_, _| {});
            assert_eq!(found, listed, "{size}: {}", case.line());
            runs += 1;
        }
        let cuts = Cuts::Random(Random(at as u64 + 1));
        let found = in_pieces(&case, cuts, pack, |_, _| {});
        assert_eq!(found, packed, "{}", case.line());
        let turned = case.turned();
        let cuts = Cuts::Random(Random(at as u64 + 2));
        let found = in_pieces(&turned, cuts, list, |_, _| {});
        assert_eq!(found, listed, "{}", turned.line());
        faults += usize::from(listed.end.0.is_err());
        runs += 2;
    }
    assert!(faults > 100);
    println!("{runs} runs, {faults} cases with faults");
}

/// Rows that are packed into a bitmap, as many as there is room for, are those that come one at a time.
#[test]
fn rows_at_once_are_those_one_at_a_time() {
    let mut rows = 0;
    for case in strips().iter().chain(&stored_cases()) {
        let (packed, width) = (case.packed(), case.settings().columns.div_ceil(8) as usize);
        for (piece, many) in [(1, 1), (64, 3), (4096, 200)] {
            let (mut feed, mut fed, mut seen) = (feed_of(case), 0, 0);
            let end = loop {
                // In every other bitmap a byte too little is left for one more row.
                let room = many * width + seen % 2 * width.saturating_sub(1);
                let mut bitmap = vec![0x5A; room];
                match feed.next_rows_packed(&mut bitmap) {
                    Ok(Fed::Row(count)) => {
                        assert!(0 < count && count <= many, "{}", case.line());
                        for (at, (row, _)) in packed.rows[seen..seen + count].iter().enumerate() {
                            assert_eq!(bitmap[at * width..(at + 1) * width], row[..]);
                        }
                        assert!(bitmap[count * width..].iter().all(|&it| it == 0x5A));
                        seen += count;
                    }
                    Ok(Fed::NeedsMore) => {
                        let length = piece.min(case.data.len() - fed);
                        feed.feed(&case.data[fed..fed + length]).unwrap();
                        fed += length;
                        if fed == case.data.len() {
                            feed.finish();
                        }
                    }
                    Ok(Fed::End) => break Ok(()),
                    Err(FeedError::Data(error)) => break Err(error),
                    Err(error) => panic!("{error}: {}", case.line()),
                }
            };
            assert_eq!((end, told!(feed)), packed.end, "{}", case.line());
            assert_eq!(seen, packed.rows.len(), "{}", case.line());
            rows += seen;
        }
    }
    assert!(rows > 100_000);
    println!("{rows} rows at once");
}

#[test]
fn no_row_is_packed_without_room() {
    let mut feed = RowFeed::new(settings(0));
    assert_eq!(feed.next_rows_packed(&mut []), Ok(Fed::NeedsMore));
    feed.feed(&CLOSED).unwrap();
    assert_eq!(feed.next_rows_packed(&mut []), Ok(Fed::Row(0)));
    let mut bitmap = [7; 3];
    assert_eq!(feed.next_rows_packed(&mut bitmap), Ok(Fed::Row(1)));
    assert_eq!(bitmap, [0b00011000, 7, 7]);
    assert_eq!(feed.next_rows_packed(&mut bitmap), Ok(Fed::End));
}

/// A row comes once its last byte was fed, unless its line was damaged or cut, or bits after it say what it is.
#[test]
fn rows_come_as_soon_as_they_are_known() {
    let mut rows = 0;
    for case in &strips() {
        if case.listed().end.0.is_err() {
            continue;
        }
        in_pieces(case, Cuts::Every(1), list, |feed, fed| {
            if feed.damage().is_none() && feed.missed_eol().is_none() && !feed.is_cut() {
                assert_eq!(feed.bytes_read(), fed, "{}", case.line());
                rows += 1;
            }
        });
    }
    assert!(rows > 10_000);
    println!("{rows} rows");
}

#[test]
fn black_is_0_turns_packed_rows() {
    let mut feed = RowFeed::new(settings(0)).black_is_0();
    feed.feed(&CLOSED).unwrap();
    assert_eq!(feed.next_packed(), Ok(Fed::Row(&[0b11100111][..])));
    assert_eq!(feed.next_packed(), Ok(Fed::End));
    let turned = CLOSED.map(u8::reverse_bits);
    let mut feed = RowFeed::new_low_first(settings(0)).black_is_0();
    feed.feed(&turned).unwrap();
    assert_eq!(feed.next_packed(), Ok(Fed::Row(&[0b11100111][..])));
}

#[test]
fn the_image_ends_before_what_follows() {
    let mut feed = RowFeed::new(settings(0));
    assert_eq!(feed.next_row(), Ok(Fed::NeedsMore));
    feed.feed(&CLOSED[..3]).unwrap();
    assert_eq!(feed.next_row(), Ok(Fed::Row(&[3, 5][..])));
    assert_eq!(feed.next_row(), Ok(Fed::NeedsMore));
    // Of the EOL that begins the gap only the number of bits is kept.
    assert_eq!((feed.rows_read(), feed.bytes_read()), (1, 2));
    assert_eq!(feed.unused(), []);
    feed.feed(&[CLOSED[3], CLOSED[4], 7, 0]).unwrap();
    assert_eq!(feed.next_row(), Ok(Fed::End));
    assert_eq!((feed.bytes_read(), feed.unused()), (5, vec![7, 0]));
    // More can be fed, which changes nothing.
    feed.feed(&[9]).unwrap();
    assert_eq!(feed.next_packed(), Ok(Fed::End));
    assert_eq!((feed.bytes_read(), feed.unused()), (5, vec![7, 0, 9]));
}

#[test]
fn nothing_is_fed_to_finished_data() {
    let mut feed = RowFeed::new(settings(1));
    feed.feed(&CLOSED[..2]).unwrap();
    feed.finish();
    feed.finish();
    assert_eq!(feed.feed(&CLOSED[2..]), Err(FeedError::Finished));
    assert_eq!(feed.feed(&[]), Err(FeedError::Finished));
    assert_eq!(feed.next_row(), Ok(Fed::Row(&[3, 5][..])));
    assert_eq!(feed.next_row(), Ok(Fed::End));
    assert_eq!((feed.bytes_read(), feed.unused()), (2, vec![]));
}

#[test]
fn a_fault_stays() {
    let mut feed = RowFeed::new(settings(0));
    feed.feed(&[0x31, 0xC0, 0x00]).unwrap();
    assert_eq!(feed.next_row(), Ok(Fed::Row(&[3, 5][..])));
    assert_eq!(feed.next_row(), Ok(Fed::NeedsMore));
    feed.finish();
    let fault = FeedError::Data(DecodeError::InvalidCode);
    assert_eq!(feed.next_row(), Err(fault));
    assert_eq!(feed.next_packed(), Err(fault));
    assert_eq!((feed.rows_read(), feed.line_start()), (1, 10));
    assert_eq!(fault.to_string(), "invalid CCITT code sequence");
    assert_eq!(FeedError::from(DecodeError::InvalidCode), fault);
}

/// Rows may be passed to a sink. If it panics, the feed stands after the row that it got.
#[test]
fn a_panic_of_a_sink_leaves_the_feed() {
    let mut feed = RowFeed::new(settings(0));
    // Three rows with the changes 3 and 5, and EOFB.
    feed.feed(&[0x31, 0xFF, 0x00, 0x10, 0x01]).unwrap();
    let mut sink = Panicking(0);
    let hook = std::panic::take_hook();
    std::panic::set_hook(Box::new(|_| {}));
    let caught = catch_unwind(AssertUnwindSafe(|| {
        while let Ok(Fed::Row(row)) = feed.next_row() {
            sink.push_row(row);
        }
    }));
    std::panic::set_hook(hook);
    assert!(caught.is_err());
    assert_eq!((sink.0, feed.rows_read()), (2, 2));
    assert_eq!(feed.next_row(), Ok(Fed::Row(&[3, 5][..])));
    assert_eq!(feed.next_row(), Ok(Fed::End));
    assert_eq!((feed.bytes_read(), feed.unused()), (5, vec![]));
}

#[test]
fn without_columns_a_feed_has_ended() {
    for encoding in [
        EncodingMode::Group4,
        EncodingMode::Group3_1D,
        EncodingMode::Group3_2D,
    ] {
        let mut feed = RowFeed::new(DecodeSettings {
            columns: 0,
            encoding,
            ..settings(0)
        });
        assert_eq!(feed.next_row(), Ok(Fed::End));
        feed.feed(&CLOSED).unwrap();
        assert_eq!(feed.next_row(), Ok(Fed::End));
        assert_eq!((feed.bytes_read(), feed.unused()), (0, CLOSED.to_vec()));
    }
}

/// A line with a black run that has no word, at bit 29; and bits where the EOL after the first row should be, at bit 17.
#[test]
fn bytes_read_after_a_fault() {
    let damaged = [0x00, 0x19, 0x80, 0x0C, 0x40, 0x00, 0x33];
    let without_eol = [0x00, 0x19, 0xF8, 0x00, 0xCC];
    for (data, place) in [(&damaged[..], 29_usize), (&without_eol[..], 17)] {
        let mut feed = RowFeed::new(DecodeSettings {
            encoding: EncodingMode::Group3_1D,
            end_of_line: true,
            strict: true,
            ..settings(0)
        });
        feed.feed(data).unwrap();
        feed.finish();
        assert!(matches!(feed.next_row(), Ok(Fed::Row(_))));
        for _ in 0..2 {
            assert_eq!(
                feed.next_row(),
                Err(FeedError::Data(DecodeError::InvalidCode))
            );
            assert_eq!(
                (feed.line_start(), feed.bytes_read()),
                (place, place.div_ceil(8))
            );
        }
    }
}
