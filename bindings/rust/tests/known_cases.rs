//! Each case of `corpus/cases.tsv`: the rows, the result and the number of bytes consumed, and the same rows packed.

mod common;

use common::settings_of;
use hayro_ccitt::{
    DecodeSettings, Decoder, DecoderContext, EncodeError, EncodeSettings, EncodingMode, IntoError,
    PackedLayout, PackedRows, RowReader, decode, decode_low_first, decode_packed,
    decode_packed_into, decode_packed_into_low_first, decode_packed_low_first, encode_bitmap,
    encode_bitmap_from,
};
use std::fs;

/// The rows as `faxrows` writes them.
#[derive(Default)]
struct Text(Vec<String>);

impl Decoder for Text {
    fn push_row(&mut self, changes: &[u32]) {
        let words: String = changes.iter().map(|place| format!(" {place}")).collect();
        self.0.push(format!("r{words}"));
    }
}

/// Bytes in hexadecimal, parts of which may be repeated: `80+0010*3`.
fn bytes_of(text: &str) -> Vec<u8> {
    let parts = text.split('+').filter(|part| *part != "-");
    parts
        .flat_map(|part| {
            let (digits, times) = part.split_once('*').unwrap_or((part, "1"));
            let bytes = (0..digits.len())
                .step_by(2)
                .map(|place| u8::from_str_radix(&digits[place..place + 2], 16).unwrap());
            bytes.collect::<Vec<u8>>().repeat(times.parse().unwrap())
        })
        .collect()
}

/// Paints each row into a bitmap.
struct Bitmap {
    columns: u32,
    bytes: Vec<u8>,
}

impl Decoder for Bitmap {
    fn push_row(&mut self, changes: &[u32]) {
        let start = self.bytes.len();
        self.bytes
            .resize(start + self.columns.div_ceil(8) as usize, 0);
        for run in changes.chunks(2) {
            for pixel in run[0]..run.get(1).copied().unwrap_or(self.columns) {
                self.bytes[start + pixel as usize / 8] |= 0x80 >> (pixel % 8);
            }
        }
    }
}

/// The same rows at a stride, with 0 for black: what is between them is kept, and with a byte less there is no room for the last.
fn compare_spread(bytes: &[u8], settings: DecodeSettings, low_first: bool, packed: &PackedRows) {
    let width = settings.columns.div_ceil(8) as usize;
    let stride = width + packed.rows % 3;
    let layout = PackedLayout {
        stride: stride as u32,
        black_is_0: true,
    };
    if packed.rows == 0 || width == 0 {
        return;
    }
    let room = (packed.rows - 1) * stride + width;
    let mut expected = vec![7; room];
    for row in 0..packed.rows {
        for byte in 0..width {
            expected[row * stride + byte] = !packed.bytes[row * width + byte];
        }
    }
    let into = if low_first {
        decode_packed_into_low_first
    } else {
        decode_packed_into
    };
    let mut context = DecoderContext::new(settings);
    let mut bitmap = vec![7; room];
    let spread = into(bytes, &mut context, layout, &mut bitmap);
    let result = packed.result.map_err(IntoError::Data);
    assert_eq!((spread, &bitmap), ((packed.rows, result), &expected));
    compare_encoded(settings.columns, layout, &bitmap, packed);
    let mut shorter = vec![7; room - 1];
    let refused = into(bytes, &mut context, layout, &mut shorter);
    assert_eq!(refused, (packed.rows - 1, Err(IntoError::NoRoom)));
    let short = PackedLayout {
        stride: width as u32 - 1,
        black_is_0: false,
    };
    if width > 1 {
        let untaken = into(bytes, &mut context, short, &mut shorter);
        assert_eq!(untaken, (0, Err(IntoError::ShortStride)));
    }
    let mut rows = if low_first {
        RowReader::new_low_first(bytes, settings).black_is_0()
    } else {
        RowReader::new(bytes, settings).black_is_0()
    };
    for row in packed.bytes.chunks(width) {
        let inverted: Vec<u8> = row.iter().map(|byte| !byte).collect();
        assert_eq!(rows.next_packed().unwrap().unwrap(), inverted);
    }
}

/// Rows at a stride, with 0 for black, are encoded as they are without.
fn compare_encoded(columns: u32, layout: PackedLayout, bitmap: &[u8], packed: &PackedRows) {
    let settings = EncodeSettings {
        columns,
        encoding: EncodingMode::Group4,
        k: 0,
        end_of_line: false,
        eols_end_at_bytes: false,
        rows_are_byte_aligned: false,
        end_of_block: true,
        low_first: false,
        shortest: false,
    };
    let together = encode_bitmap(&packed.bytes, settings);
    assert_eq!(encode_bitmap_from(bitmap, layout, settings), together);
    if columns > 8 {
        let less = &bitmap[..bitmap.len() - 1];
        let inside = encode_bitmap_from(less, layout, settings);
        assert_eq!(inside, Err(EncodeError::NotWholeRows));
        let short = PackedLayout {
            stride: 1,
            ..layout
        };
        let untaken = encode_bitmap_from(bitmap, short, settings);
        assert_eq!(untaken, Err(EncodeError::ShortStride));
    }
}

/// The packed rows are those that a sink gets, also with another limit that is no limit, and take no more memory.
fn compare_packed(bytes: &[u8], settings: DecodeSettings, low_first: bool) {
    let unreached = u32::MAX;
    for rows in [
        settings.rows,
        if settings.rows == 0 { unreached } else { 0 },
    ] {
        let mut context = DecoderContext::new(DecodeSettings { rows, ..settings });
        let mut bitmap = Bitmap {
            columns: settings.columns,
            bytes: Vec::new(),
        };
        let (result, packed): (_, PackedRows) = if low_first {
            let result = decode_low_first(bytes, &mut bitmap, &mut context);
            (result, decode_packed_low_first(bytes, &mut context))
        } else {
            let result = decode(bytes, &mut bitmap, &mut context);
            (result, decode_packed(bytes, &mut context))
        };
        let width = settings.columns.div_ceil(8) as usize;
        assert_eq!((packed.result, &packed.bytes), (result, &bitmap.bytes));
        compare_spread(
            bytes,
            DecodeSettings { rows, ..settings },
            low_first,
            &packed,
        );
        assert_eq!(packed.rows * width, packed.bytes.len());
        assert_eq!(packed.bytes.capacity(), packed.bytes.len());
    }
}

#[test]
fn known_cases() {
    let cases = fs::read_to_string("../../corpus/cases.tsv").unwrap();
    let mut seen = 0;
    for line in cases.lines().filter(|line| !line.starts_with('#')) {
        let [words, data, expected] = line.split('\t').collect::<Vec<_>>()[..] else {
            panic!("{line}")
        };
        let mut context = DecoderContext::new(settings_of(words));
        // A context that decoded before decodes as a new one.
        for _ in 0..2 {
            let mut text = Text::default();
            let bytes = bytes_of(data);
            let answer = if words.contains('r') {
                decode_low_first(&bytes, &mut text, &mut context)
            } else {
                decode(&bytes, &mut text, &mut context)
            };
            text.0.push(match answer {
                Ok(count) => format!("ok {count}"),
                Err(error) => format!("error: {error}"),
            });
            assert_eq!(text.0.join("/"), expected, "{words} {data}");
        }
        let settings = settings_of(words);
        if settings.columns <= 1 << 16 {
            compare_packed(&bytes_of(data), settings, words.contains('r'));
        }
        seen += 1;
    }
    assert!(seen > 1000);
    println!("{seen} cases");
}
