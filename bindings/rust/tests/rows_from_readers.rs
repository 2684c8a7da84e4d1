//! `RowsFrom`: rows from a `BufRead` are those of a `RowReader` of all its data, and what follows the image stays there. These tests
//! need the feature `std`: `cargo test --all-features`.
#![cfg(feature = "std")]

#[macro_use]
mod common;

use common::{Case, Random, Reading, long_data, random_data, stored_cases, strips};
use hayro_ccitt::{
    DecodeError, DecodeSettings, EncodeSettings, EncodingMode, ReadError, RowFeed, RowsFrom,
    encode_bitmap,
};
use std::cell::Cell;
use std::io::{self, BufRead, BufReader, Cursor, ErrorKind, Read};

/// A row of eight pixels with the changes 3 and 5, in Group 4, and EOFB.
const CLOSED: [u8; 5] = [0x31, 0xC0, 0x04, 0x00, 0x40];

fn settings(rows: u32) -> DecodeSettings {
    DecodeSettings {
        columns: 8,
        rows,
        end_of_block: true,
        end_of_line: false,
        rows_are_byte_aligned: false,
        encoding: EncodingMode::Group4,
        strict: false,
    }
}

fn rows_from<R: BufRead>(case: &Case, reader: R) -> RowsFrom<R> {
    if case.is_low_first() {
        RowsFrom::new_low_first(reader, case.settings())
    } else {
        RowsFrom::new(reader, case.settings())
    }
}

/// What is seen of a reader from outside.
#[derive(Default)]
struct Watched {
    /// How many bytes were consumed.
    consumed: Cell<usize>,
    /// How often it was asked for bytes.
    asked: Cell<usize>,
}

/// A reader that shows a piece of its data at a time, of a length that looks random.
struct Pieces<'a> {
    data: &'a [u8],
    watched: &'a Watched,
    random: Random,
    shown: usize,
    /// An error of this kind comes at every third time.
    error: Option<ErrorKind>,
}

impl<'a> Pieces<'a> {
    fn of(data: &'a [u8], watched: &'a Watched, seed: u64) -> Self {
        Self {
            data,
            watched,
            random: Random(seed),
            shown: 0,
            error: None,
        }
    }
}

impl Read for Pieces<'_> {
    fn read(&mut self, bytes: &mut [u8]) -> io::Result<usize> {
        let length = self.fill_buf()?.read(bytes)?;
        self.consume(length);
        Ok(length)
    }
}

impl BufRead for Pieces<'_> {
    fn fill_buf(&mut self) -> io::Result<&[u8]> {
        let Watched { consumed, asked } = self.watched;
        asked.set(asked.get() + 1);
        if let Some(kind) = self.error.filter(|_| asked.get() % 3 == 0) {
            return Err(kind.into());
        }
        let left = &self.data[consumed.get()..];
        if self.shown == 0 {
            self.shown = (1 + self.random.below(20)).min(left.len());
        }
        Ok(&left[..self.shown])
    }

    fn consume(&mut self, amount: usize) {
        assert!(amount <= self.shown, "more is consumed than was shown");
        self.shown -= amount;
        let consumed = &self.watched.consumed;
        consumed.set(consumed.get() + amount);
    }
}

/// Reads all rows by a call that reads one. Where the reader fails, it is called again.
fn read_all<T, R: BufRead>(
    rows: &mut RowsFrom<R>,
    read: impl Fn(&mut RowsFrom<R>) -> Result<Option<Vec<T>>, ReadError>,
) -> Reading<T> {
    let mut found = Vec::new();
    loop {
        let end = match read(rows) {
            Ok(Some(row)) => {
                found.push((row, told!(rows)));
                continue;
            }
            Err(ReadError::Io(_)) => continue,
            Ok(None) => Ok(()),
            Err(ReadError::Data(error)) => Err(error),
            Err(error) => panic!("{error}"),
        };
        // It stays.
        match read(rows) {
            Ok(None) => assert_eq!(end, Ok(())),
            Err(ReadError::Data(error)) => assert_eq!(end, Err(error)),
            Ok(Some(_)) => panic!("a row after the end"),
            Err(error) => panic!("{error} after the end"),
        }
        return Reading {
            rows: found,
            end: (end, told!(rows)),
        };
    }
}

fn list<R: BufRead>(rows: &mut RowsFrom<R>) -> Result<Option<Vec<u32>>, ReadError> {
    Ok(rows.next_row()?.map(<[u32]>::to_vec))
}

fn pack<R: BufRead>(rows: &mut RowsFrom<R>) -> Result<Option<Vec<u8>>, ReadError> {
    Ok(rows.next_packed()?.map(<[u8]>::to_vec))
}

/// The rows of a case by this reader are those that were listed, and what follows them is in `unused` and the reader. Returns whether
/// nothing was unused.
fn compare(case: &Case, listed: &Reading<u32>, reader: impl BufRead, name: &str) -> bool {
    let mut rows = rows_from(case, reader);
    let found = read_all(&mut rows, list);
    assert_eq!(&found, listed, "{name}: {}", case.line());
    let read = rows.bytes_read();
    let unused = rows.unused();
    assert!(
        case.data[read..].starts_with(&unused),
        "{name}: {}",
        case.line()
    );
    let mut rest = Vec::new();
    let is_exact = unused.is_empty();
    if is_exact {
        rows.into_inner().read_to_end(&mut rest).unwrap();
    } else {
        rows.into_rest().read_to_end(&mut rest).unwrap();
    }
    assert_eq!(rest, case.data[read..], "{name}: {}", case.line());
    is_exact
}

#[test]
fn readers_give_the_rows_of_the_whole() {
    let (mut runs, mut exact) = (0, 0);
    let cases = [strips(), stored_cases(), random_data(), long_data()];
    for (at, mut case) in cases.into_iter().flatten().enumerate() {
        // Something follows, which may look like a part of the image.
        let tails = [
            &[][..],
            &[0x80],
            &[0, 0, 0, 0x31],
            &[0; 9],
            &[0x00, 0x10, 0x01, 0x07],
        ];
        case.data.extend_from_slice(tails[at % tails.len()]);
        let listed = case.listed();
        let data = &case.data[..];
        exact += usize::from(compare(&case, &listed, data, "a slice"));
        exact += usize::from(compare(&case, &listed, Cursor::new(data), "a cursor"));
        for size in [1, 2, 3, 7, 64, 4096] {
            let reader = BufReader::with_capacity(size, data);
            exact += usize::from(compare(&case, &listed, reader, "a reader"));
            runs += 1;
        }
        let watched = Watched::default();
        let pieces = Pieces::of(data, &watched, at as u64 + 1);
        exact += usize::from(compare(&case, &listed, pieces, "pieces"));
        runs += 3;
    }
    assert!(exact > runs / 2 && exact < runs, "{exact} of {runs}");
    println!("{runs} runs, of which {exact} consumed exactly the image");
}

/// After each call the bytes consumed are those read, and then those unused; also where the reader fails, except within a gap, and
/// packed.
#[test]
fn no_byte_is_lost_between_rows() {
    let (mut calls, mut unused, mut failed) = (0, 0, 0);
    for (at, case) in [strips(), random_data()].into_iter().flatten().enumerate() {
        let watched = Watched::default();
        let mut pieces = Pieces::of(&case.data, &watched, at as u64 + 1);
        pieces.error = [
            None,
            Some(ErrorKind::Interrupted),
            Some(ErrorKind::TimedOut),
        ][at % 3];
        let mut rows = rows_from(&case, pieces);
        let counts = Cell::new((0, 0, 0));
        let found = read_all(&mut rows, |rows| {
            let row = pack(rows);
            let (read, more) = (rows.bytes_read(), rows.unused());
            let consumed = &case.data[..watched.consumed.get()];
            let is_failed = match &row {
                Err(ReadError::Io(error)) => {
                    assert_eq!(error.kind(), ErrorKind::TimedOut);
                    true
                }
                _ => false,
            };
            // Within a gap what was consumed isn't kept.
            let is_known = consumed[read..] == more || is_failed && more.is_empty();
            assert!(is_known, "{}", case.line());
            let (calls, unused, failed) = counts.get();
            counts.set((
                calls + 1,
                unused + usize::from(!more.is_empty()),
                failed + usize::from(is_failed),
            ));
            row
        });
        assert_eq!(found, case.packed(), "{}", case.line());
        calls += counts.get().0;
        unused += counts.get().1;
        failed += counts.get().2;
    }
    assert!(unused > 1000 && failed > 1000, "{unused} {failed}");
    println!("{calls} calls, {unused} with unused bytes, {failed} after which the reader failed");
}

/// An encoded bitmap of 33 columns, and the settings that it is decoded with, without a row limit.
fn page(encoding: EncodingMode, eols_end_at_bytes: bool, rows: usize) -> (Vec<u8>, DecodeSettings) {
    let is_group_3 = encoding != EncodingMode::Group4;
    let bitmap: Vec<u8> = (0..rows * 5).map(|byte| (byte * 37 % 251) as u8).collect();
    let encoded = EncodeSettings {
        columns: 33,
        encoding,
        k: 4,
        end_of_line: is_group_3,
        eols_end_at_bytes,
        rows_are_byte_aligned: false,
        end_of_block: true,
        low_first: false,
        shortest: false,
    };
    let settings = DecodeSettings {
        columns: 33,
        end_of_line: is_group_3,
        encoding,
        strict: true,
        ..settings(0)
    };
    (encode_bitmap(&bitmap, encoded).unwrap(), settings)
}

/// The rows of a page by a `RowReader`, and the number of its bytes.
fn rows_of(data: &[u8], settings: DecodeSettings) -> (Vec<Vec<u8>>, usize) {
    let mut reader = hayro_ccitt::RowReader::new(data, settings);
    let mut rows = Vec::new();
    while let Some(row) = reader.next_packed().unwrap() {
        rows.push(row.to_vec());
    }
    (rows, reader.bytes_read())
}

fn all_rows<R: BufRead>(rows: &mut RowsFrom<R>) -> Vec<Vec<u8>> {
    let mut found = Vec::new();
    while let Some(row) = pack(rows).unwrap() {
        found.push(row);
    }
    found
}

/// Pages that EOFB closes follow one another, and nothing of one is needed by the one before it, however small the buffer is.
#[test]
fn pages_that_eofb_closes_follow_one_another() {
    let pages: Vec<_> = [20, 1, 7]
        .map(|rows| page(EncodingMode::Group4, false, rows))
        .into();
    let data: Vec<u8> = pages.iter().flat_map(|(data, _)| data.clone()).collect();
    for size in 1..40 {
        let mut reader = BufReader::with_capacity(size, &data[..]);
        for (data, settings) in &pages {
            let mut rows = RowsFrom::new(&mut reader, *settings);
            assert_eq!(all_rows(&mut rows), rows_of(data, *settings).0);
            assert_eq!((rows.bytes_read(), rows.unused()), (data.len(), vec![]));
        }
        assert_eq!(reader.read(&mut [0]).unwrap(), 0);
    }
}

/// Pages that RTC closes, each with a length before it, which is read from the same reader.
#[test]
fn pages_that_rtc_closes_follow_one_another() {
    for encoding in [EncodingMode::Group3_1D, EncodingMode::Group3_2D] {
        let pages: Vec<_> = [20, 1, 7].map(|rows| page(encoding, false, rows)).into();
        let mut file = Vec::new();
        for (data, _) in &pages {
            file.extend_from_slice(&(data.len() as u16 | 0x8000).to_be_bytes());
            file.extend_from_slice(data);
        }
        for size in 1..40 {
            let mut reader = BufReader::with_capacity(size, &file[..]);
            for (data, settings) in &pages {
                let mut length = [0; 2];
                reader.read_exact(&mut length).unwrap();
                assert_eq!(u16::from_be_bytes(length) & 0x7FFF, data.len() as u16);
                let mut rows = RowsFrom::new(&mut reader, *settings);
                assert_eq!(all_rows(&mut rows), rows_of(data, *settings).0);
                assert_eq!((rows.bytes_read(), rows.unused()), (data.len(), vec![]));
            }
            assert_eq!(reader.read(&mut [0]).unwrap(), 0);
        }
    }
}

/// The first EOL of a page that follows RTC directly belongs to RTC, as in `decode`. Where EOLs end at whole bytes, the rows of both
/// pages are there all the same.
#[test]
fn the_eol_after_rtc_belongs_to_it() {
    let (data, settings) = page(EncodingMode::Group3_1D, true, 9);
    let two = data.repeat(2);
    assert_eq!(data[..2], [0x00, 0x01]);
    assert_eq!(rows_of(&two, settings).1, data.len() + 2);
    for size in 1..40 {
        let mut reader = BufReader::with_capacity(size, &two[..]);
        for read in [data.len() + 2, data.len() - 2] {
            let mut rows = RowsFrom::new(&mut reader, settings);
            assert_eq!(all_rows(&mut rows), rows_of(&data, settings).0);
            assert_eq!((rows.bytes_read(), rows.unused()), (read, vec![]));
        }
    }
}

/// Zeros after the last row are looked at, since an EOL could follow them: those of a buffer that shows no more are unused, if none does.
#[test]
fn what_was_looked_at_is_unused() {
    let settings = DecodeSettings {
        end_of_block: false,
        rows_are_byte_aligned: true,
        ..settings(1)
    };
    // A row; zeros, and a one, which make an EOL; and something else. Or there are fewer zeros, which don't.
    let eol = [0x31, 0xC0, 0x00, 0x00, 0x00, 0x01, 0x55];
    let none = [0x31, 0xC0, 0x00, 0x80, 0x55];
    for (data, size, read, unused) in [
        (&eol[..], 1, 6, 0),
        (&eol, 64, 6, 0),
        (&none, 1, 2, 1),
        (&none, 2, 2, 0),
        (&none, 3, 2, 1),
        (&none, 64, 2, 0),
        (&eol[..5], 1, 2, 3),
        (&eol[..5], 64, 2, 3),
    ] {
        let reader = BufReader::with_capacity(size, data);
        let mut rows = RowsFrom::new(reader, settings);
        assert_eq!(list(&mut rows).unwrap(), Some(vec![3, 5]));
        assert_eq!((rows.bytes_read(), rows.unused().len()), (2, 0));
        assert_eq!(list(&mut rows).unwrap(), None);
        assert_eq!(rows.bytes_read(), read, "{size} {data:?}");
        assert_eq!(rows.unused(), vec![0; unused], "{size} {data:?}");
        let mut rest = Vec::new();
        rows.into_rest().read_to_end(&mut rest).unwrap();
        assert_eq!(rest, data[read..]);
    }
}

#[test]
fn a_reader_is_asked_for_no_more_than_is_needed() {
    let (data, watched) = ([&CLOSED[..], &[7; 30]].concat(), Watched::default());
    let mut pieces = Pieces::of(&data, &watched, 5);
    let mut rows = RowsFrom::new(&mut pieces, settings(0));
    assert_eq!(list(&mut rows).unwrap(), Some(vec![3, 5]));
    assert_eq!(list(&mut rows).unwrap(), None);
    let asked = watched.asked.get();
    assert_eq!(list(&mut rows).unwrap(), None);
    assert_eq!(watched.consumed.get(), 5);
    // Nor is it where the data was fed and finished.
    let mut finished = RowFeed::new(settings(1));
    finished.feed(&CLOSED[..2]).unwrap();
    finished.finish();
    let mut rows = RowsFrom::with_feed(&mut pieces, finished);
    assert_eq!(list(&mut rows).unwrap(), Some(vec![3, 5]));
    assert_eq!(list(&mut rows).unwrap(), None);
    assert_eq!((watched.consumed.get(), watched.asked.get()), (5, asked));
}

#[test]
fn data_that_was_fed_comes_first() {
    let mut begun = RowFeed::new(settings(0)).black_is_0();
    begun.feed(&CLOSED[..3]).unwrap();
    let mut reader = &CLOSED[3..];
    let mut rows = RowsFrom::with_feed(&mut reader, begun);
    assert_eq!(pack(&mut rows).unwrap(), Some(vec![0b11100111]));
    assert_eq!(rows.unused(), CLOSED[2..3]);
    assert_eq!(pack(&mut rows).unwrap(), None);
    assert_eq!((rows.bytes_read(), rows.unused()), (5, vec![]));
    assert_eq!(reader.len(), 0);
}

#[test]
fn errors_are_those_of_the_reader_and_of_the_data() {
    struct Broken;
    impl Read for Broken {
        fn read(&mut self, _: &mut [u8]) -> io::Result<usize> {
            Err(io::Error::other("broken"))
        }
    }
    let reader = BufReader::with_capacity(2, (&CLOSED[..4]).chain(Broken));
    let mut rows = RowsFrom::new(reader, settings(0));
    assert_eq!(list(&mut rows).unwrap(), Some(vec![3, 5]));
    for _ in 0..3 {
        let error = list(&mut rows).unwrap_err();
        assert!(matches!(error, ReadError::Io(_)));
        assert_eq!(io::Error::from(error).to_string(), "broken");
    }
    // What was looked at wasn't read. Of a gap only the number of bits is kept.
    assert_eq!((rows.bytes_read(), rows.unused()), (2, vec![]));
    let kinds = [
        (
            ReadError::Data(DecodeError::UnexpectedEof),
            ErrorKind::UnexpectedEof,
        ),
        (
            ReadError::Data(DecodeError::InvalidCode),
            ErrorKind::InvalidData,
        ),
        (ReadError::OutOfMemory, ErrorKind::OutOfMemory),
    ];
    for (error, kind) in kinds {
        assert_eq!(io::Error::from(error).kind(), kind);
    }
    fn is_thread_safe<T: Send + Sync + std::error::Error + 'static>() {}
    is_thread_safe::<ReadError>();
    fn is_sent<T: Send>() {}
    is_sent::<RowsFrom<BufReader<std::net::TcpStream>>>();
}
