//! What a program that depends on the crate `hayro-ccitt` 0.5.0 relies on besides its results: borrowed sinks, panics in a sink, threads,
//! and what its types can be used for; and the calls that the crate doesn't have.

mod common;

use common::{Panicking, resident};
use hayro_ccitt::{
    DecodeError, DecodeSettings, Decoder, DecoderContext, EncodeError, EncodeSettings,
    EncodingMode, RowReader, decode, decode_low_first, decode_packed, decode_packed_low_first,
    encode_bitmap,
};
use std::panic::{AssertUnwindSafe, catch_unwind};
use std::thread;

const TWO_ROWS: [u8; 2] = [0x31, 0xF8];

fn settings(rows: u32) -> DecodeSettings {
    DecodeSettings {
        columns: 8,
        rows,
        end_of_block: true,
        end_of_line: false,
        rows_are_byte_aligned: false,
        encoding: EncodingMode::Group4,
        strict: false,
    }
}

/// A sink that borrows what it writes to, and what it compares with.
struct Borrowing<'a> {
    rows: &'a mut Vec<Vec<u32>>,
    wanted: &'a [u32],
}

impl Decoder for Borrowing<'_> {
    fn push_row(&mut self, changes: &[u32]) {
        assert_eq!(changes, self.wanted);
        self.rows.push(changes.to_vec());
    }
}

#[test]
fn sinks_may_borrow() {
    let (mut rows, wanted) = (Vec::new(), vec![3, 5]);
    let mut context = DecoderContext::new(settings(2));
    {
        let data = TWO_ROWS.to_vec();
        let mut sink = Borrowing {
            rows: &mut rows,
            wanted: &wanted,
        };
        assert_eq!(decode(&data, &mut sink, &mut context), Ok(2));
    }
    assert_eq!(rows, [[3, 5], [3, 5]]);
}

#[test]
fn a_panic_of_a_sink_reaches_the_caller() {
    let mut context = DecoderContext::new(settings(2));
    let mut sink = Panicking(0);
    let caught = catch_unwind(AssertUnwindSafe(|| {
        decode(&TWO_ROWS, &mut sink, &mut context)
    }));
    assert!(caught.is_err());
    assert_eq!(sink.0, 2);
    // The context decodes the next data as a new one would.
    let mut rows = Vec::new();
    let mut sink = Borrowing {
        rows: &mut rows,
        wanted: &[3, 5],
    };
    assert_eq!(decode(&TWO_ROWS, &mut sink, &mut context), Ok(2));
}

#[test]
fn contexts_go_to_threads() {
    fn is_thread_safe<
        T: Send + Sync + Unpin + std::panic::UnwindSafe + std::panic::RefUnwindSafe,
    >() {
    }
    is_thread_safe::<DecoderContext>();
    is_thread_safe::<DecodeSettings>();
    is_thread_safe::<DecodeError>();
    let mut contexts: Vec<DecoderContext> =
        (0..8).map(|_| DecoderContext::new(settings(2))).collect();
    thread::scope(|scope| {
        for context in &mut contexts {
            scope.spawn(move || {
                for _ in 0..1000 {
                    let mut rows = Vec::new();
                    let mut sink = Borrowing {
                        rows: &mut rows,
                        wanted: &[3, 5],
                    };
                    assert_eq!(decode(&TWO_ROWS, &mut sink, context), Ok(2));
                    assert_eq!(rows.len(), 2);
                }
            });
        }
    });
}

#[test]
fn errors_are_values() {
    fn is_error<T: std::error::Error + Copy + Eq + std::fmt::Debug + 'static>() {}
    is_error::<DecodeError>();
    let settings = settings(1);
    let copied = settings;
    assert_eq!(format!("{settings:?}"), format!("{copied:?}"));
    let boxed: Box<dyn std::error::Error + Send + Sync> = DecodeError::InvalidCode.into();
    assert_eq!(boxed.to_string(), "invalid CCITT code sequence");
}

#[test]
fn rows_before_an_error_are_there() {
    let mut context = DecoderContext::new(settings(0));
    let image = decode_packed(&[0x80], &mut context);
    assert_eq!((image.rows, &image.bytes[..]), (1, &[0][..]));
    assert_eq!(image.result, Err(DecodeError::InvalidCode));
}

#[test]
fn no_memory_is_allocated_for_rows_that_do_not_come() {
    let widest = DecodeSettings {
        columns: u32::MAX,
        ..settings(u32::MAX)
    };
    let image = decode_packed(&[0, 0], &mut DecoderContext::new(widest));
    assert_eq!((image.rows, image.bytes.capacity()), (0, 0));
    assert_eq!(image.result, Err(DecodeError::InvalidCode));
}

#[test]
fn as_many_rows_as_come_are_packed() {
    let wide = DecodeSettings {
        columns: 800,
        ..settings(0)
    };
    // A row with the changes 3 and 5, and copies of it of three bits.
    let mut data = vec![0xFF; 29_999];
    data[0] = 0x31;
    let image = decode_packed(&data, &mut DecoderContext::new(wide));
    assert_eq!((image.rows, image.result), (79_995, Ok(29_999)));
    assert_eq!(image.bytes.capacity(), 79_995 * 100);
    let mut row = [0; 100];
    row[0] = 0x18;
    assert!(image.bytes.chunks(100).all(|one| one == row));
}

#[test]
fn packed_rows_in_either_order() {
    let mut context = DecoderContext::new(settings(2));
    let turned: Vec<u8> = TWO_ROWS.iter().map(|byte| byte.reverse_bits()).collect();
    let image = decode_packed(&TWO_ROWS, &mut context);
    assert_eq!((image.rows, &image.bytes[..]), (2, &[0x18, 0x18][..]));
    assert_eq!(decode_packed_low_first(&turned, &mut context), image);
    let mut rows = Vec::new();
    let mut sink = Borrowing {
        rows: &mut rows,
        wanted: &[3, 5],
    };
    assert_eq!(decode_low_first(&turned, &mut sink, &mut context), Ok(2));
}

/// Settings of an encoder of rows of eight pixels that match the others but for the number of rows.
fn encode_settings(settings: DecodeSettings, eols_end_at_bytes: bool) -> EncodeSettings {
    EncodeSettings {
        columns: 8,
        encoding: settings.encoding,
        k: 2,
        end_of_line: settings.end_of_line,
        eols_end_at_bytes,
        rows_are_byte_aligned: settings.rows_are_byte_aligned,
        end_of_block: settings.end_of_block,
        low_first: false,
        shortest: false,
    }
}

#[test]
fn what_is_encoded_decodes_to_it() {
    let bitmap = [0xFF, 0x00, 0xA5];
    let (mut encoded, mut refused) = (0, 0);
    for encoding in [
        EncodingMode::Group4,
        EncodingMode::Group3_1D,
        EncodingMode::Group3_2D,
    ] {
        for flags in 0..16 {
            let matching = DecodeSettings {
                rows: 3,
                end_of_block: flags & 1 != 0,
                end_of_line: flags & 2 != 0,
                rows_are_byte_aligned: flags & 4 != 0,
                encoding,
                strict: true,
                ..settings(0)
            };
            let settings = encode_settings(matching, flags & 8 != 0);
            let low_first = EncodeSettings {
                low_first: true,
                ..settings
            };
            let Ok(data) = encode_bitmap(&bitmap, settings) else {
                assert_eq!(
                    encode_bitmap(&bitmap, settings),
                    Err(EncodeError::NoEncoding)
                );
                refused += 1;
                continue;
            };
            let turned: Vec<u8> = data.iter().map(|byte| byte.reverse_bits()).collect();
            assert_eq!(encode_bitmap(&bitmap, low_first), Ok(turned));
            let image = decode_packed(&data, &mut DecoderContext::new(matching));
            assert_eq!(image.bytes, bitmap);
            assert!(image.result.is_ok());
            encoded += 1;
        }
    }
    // Group 4: aligned or not, closed or not; Group 3, twice: with EOLs filled or not, closed or not; without, aligned or not.
    assert_eq!((encoded, refused), (4 + 2 * (4 + 2), 48 - 16));
}

#[test]
fn what_has_no_encoding() {
    let group_4 = encode_settings(settings(0), false);
    let no_rows = EncodeSettings {
        end_of_block: false,
        ..group_4
    };
    let of_width = |columns| EncodeSettings { columns, ..group_4 };
    let no_k = EncodeSettings {
        encoding: EncodingMode::Group3_2D,
        k: 0,
        ..no_rows
    };
    assert_eq!(encode_bitmap(&[], group_4), Ok(vec![0x00, 0x10, 0x01]));
    assert_eq!(encode_bitmap(&[], no_rows), Err(EncodeError::NoRows));
    assert_eq!(
        encode_bitmap(&[0], of_width(0)),
        Err(EncodeError::NoColumns)
    );
    assert_eq!(
        encode_bitmap(&[0], of_width(9)),
        Err(EncodeError::NotWholeRows)
    );
    assert_eq!(encode_bitmap(&[0], no_k), Err(EncodeError::NoEncoding));
}

#[test]
fn nothing_leaks_where_a_sink_panics_or_a_reader_is_dropped() {
    let quiet = |times: usize| {
        for _ in 0..times {
            let mut context = DecoderContext::new(settings(2));
            let caught = catch_unwind(AssertUnwindSafe(|| {
                decode(&TWO_ROWS, &mut Panicking(0), &mut context)
            }));
            assert!(caught.is_err());
            let mut rows = RowReader::new(&TWO_ROWS, settings(2));
            assert_eq!(rows.next_row(), Ok(Some(&[3, 5][..])));
        }
    };
    let hook = std::panic::take_hook();
    std::panic::set_hook(Box::new(|_| {}));
    quiet(100);
    let before = resident();
    quiet(4000);
    std::panic::set_hook(hook);
    // A reader has some 20 KB: the leaks would be 160 MB.
    assert!(resident() < before + 40_000, "{before} {}", resident());
}

#[test]
fn rows_one_at_a_time() {
    let mut rows = RowReader::new(&TWO_ROWS, settings(2));
    let mut other = RowReader::new(&TWO_ROWS, settings(1));
    assert_eq!(rows.next_row(), Ok(Some(&[3, 5][..])));
    assert_eq!((rows.rows_read(), rows.line_start()), (1, 0));
    assert_eq!(other.next_packed(), Ok(Some(&[0x18][..])));
    assert_eq!(other.next_packed(), Ok(None));
    assert_eq!(rows.next_packed(), Ok(Some(&[0x18][..])));
    assert_eq!((rows.rows_read(), rows.line_start()), (2, 10));
    assert_eq!(rows.next_row(), Ok(None));
    assert_eq!(rows.next_packed(), Ok(None));
    assert_eq!((rows.bytes_read(), rows.damaged_rows()), (2, 0));
    let turned = TWO_ROWS.map(u8::reverse_bits);
    let mut rows = RowReader::new_low_first(&turned, settings(2));
    assert_eq!(rows.next_row(), Ok(Some(&[3, 5][..])));
    let mut fault = RowReader::new(&[0x80], settings(0));
    assert_eq!(fault.next_row(), Ok(Some(&[][..])));
    assert_eq!(fault.next_row(), Err(DecodeError::InvalidCode));
    assert_eq!(fault.next_row(), Err(DecodeError::InvalidCode));
    assert_eq!(fault.rows_read(), 1);
    fn is_thread_safe<T: Send + Sync>() {}
    is_thread_safe::<RowReader<'_>>();
}

#[test]
fn repaired_rows_are_counted() {
    // 8 columns of one-dimensional Group 3: an EOL and a white row, an EOL and a damaged line, an EOL and a white row.
    let line = "00000000000110011";
    let bits = format!("{line}0000000000010000000011{line}");
    let data: Vec<u8> = (0..bits.len().div_ceil(8))
        .map(|byte| {
            (0..8).fold(0, |sum, k| {
                sum * 2 + u8::from(bits.as_bytes().get(8 * byte + k) == Some(&b'1'))
            })
        })
        .collect();
    let settings = DecodeSettings {
        end_of_line: true,
        encoding: EncodingMode::Group3_1D,
        ..settings(3)
    };
    let mut context = DecoderContext::new(settings);
    let image = decode_packed(&data, &mut context);
    assert_eq!((image.rows, context.damaged_rows()), (3, 1));
    assert_eq!(context.fault_start(), None);
    // Read strictly, the damaged line ends the image: it begins after a line of 17 bits and an EOL of 12.
    let mut strict = DecoderContext::new(DecodeSettings {
        strict: true,
        ..settings
    });
    assert_eq!(decode_packed(&data, &mut strict).rows, 1);
    assert_eq!(strict.fault_start(), Some(29));
    let mut rows = Vec::new();
    let mut white = Borrowing {
        rows: &mut rows,
        wanted: &[],
    };
    assert!(decode(&data, &mut white, &mut strict).is_err());
    assert_eq!((strict.fault_start(), rows.len()), (Some(29), 1));
    let mut rows = RowReader::new(&data, settings);
    let mut seen = Vec::new();
    while let Some(_changes) = rows.next_row().unwrap() {
        seen.push(rows.damage().is_some());
    }
    assert_eq!(seen, [false, true, false]);
    assert_eq!((rows.damaged_rows(), rows.missed_eols()), (1, 0));
}

#[test]
fn missed_eols_are_counted() {
    // An EOL and a white row of 8 columns, seven bits, an EOL and a white row.
    let data = [0x00, 0x19, 0xF8, 0x00, 0xCC];
    let settings = DecodeSettings {
        end_of_line: true,
        encoding: EncodingMode::Group3_1D,
        ..settings(2)
    };
    let mut context = DecoderContext::new(settings);
    let image = decode_packed(&data, &mut context);
    assert_eq!(
        (image.rows, context.damaged_rows(), context.missed_eols()),
        (2, 0, 1)
    );
    let mut rows = Vec::new();
    let mut white = Borrowing {
        rows: &mut rows,
        wanted: &[],
    };
    assert!(decode(&data, &mut white, &mut context).is_ok());
    assert_eq!(context.missed_eols(), 1);
    let mut rows = RowReader::new(&data, settings);
    assert!(rows.next_row().unwrap().is_some());
    assert_eq!(rows.missed_eols(), 0);
    assert!(rows.next_row().unwrap().is_some());
    assert_eq!(rows.missed_eols(), 1);
}
