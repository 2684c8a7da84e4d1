//! What 32 bits of `usize` barely hold: strides of nearly 2^32, rows of nearly 2^32 pixels, and data of nearly 2^32 bits. What each call
//! answers is compared with what its documentation says, by simple code, or printed.
//!
//!     edges [strides|rows|data]

use hayro_ccitt::{
    DecodeError, DecodeSettings, Decoder, DecoderContext, EncodeSettings, EncodingMode, Fed,
    FeedError, IntoError, PackedLayout, RowFeed, RowReader, decode, decode_packed,
    decode_packed_into, encode_bitmap, encode_bitmap_from,
};

fn reading(columns: u32, rows: u32, encoding: EncodingMode) -> DecodeSettings {
    DecodeSettings {
        columns,
        rows,
        end_of_block: false,
        end_of_line: encoding != EncodingMode::Group4,
        rows_are_byte_aligned: false,
        encoding,
        strict: false,
    }
}

fn writing(columns: u32) -> EncodeSettings {
    EncodeSettings {
        columns,
        encoding: EncodingMode::Group4,
        k: 0,
        end_of_line: false,
        eols_end_at_bytes: false,
        rows_are_byte_aligned: false,
        end_of_block: false,
        low_first: false,
        shortest: false,
    }
}

/// Two rows of eight pixels whose second one begins after the bitmap, by as much as a stride may be.
fn far_strides() {
    for pixels in [0x00, 0x18] {
        let data = encode_bitmap(&[pixels, pixels], writing(8)).unwrap();
        for stride in [1 << 31, u32::MAX - 15, u32::MAX - 1, u32::MAX] {
            for black_is_0 in [false, true] {
                let layout = PackedLayout { stride, black_is_0 };
                let row = if black_is_0 { !pixels } else { pixels };
                let mut bitmap = [7; 16];
                let mut context = DecoderContext::new(reading(8, 2, EncodingMode::Group4));
                let decoded = decode_packed_into(&data, &mut context, layout, &mut bitmap);
                assert_eq!(decoded, (1, Err(IntoError::NoRoom)));
                assert_eq!((bitmap[0], &bitmap[1..]), (row, &[7; 15][..]));
                let one_row = encode_bitmap_from(&[row], layout, writing(8)).unwrap();
                assert_eq!(one_row, encode_bitmap(&[pixels], writing(8)).unwrap());
            }
        }
    }
}

/// Makes the pixels between two positions black.
fn blacken(row: &mut [u8], from: u32, to: u32) {
    let (mut from, to) = (from as u64, to as u64);
    while from < to {
        let byte = (from / 8) as usize;
        if from % 8 == 0 && to - from >= 8 {
            row[byte..(to / 8) as usize].fill(0xFF);
            from = to / 8 * 8;
        } else {
            row[byte] |= 0x80 >> (from % 8);
            from += 1;
        }
    }
}

/// Rows whose last black runs are as far right as a position can be: they are encoded, decoded, and painted.
fn longest_rows() {
    let end = u32::MAX;
    for places in [
        // Few changes with a long run: painted from the left, a word at a time.
        &[0, 7000, end - 60, end - 50, end - 40, end - 30][..],
        &[0, 7000, end - 60, end - 50, end - 9, end],
        // Painted by their runs, in the last word, in two, and across many.
        &[3, 70, end - 61, end - 50, end - 9, end],
        &[end - 130, end - 62, end - 2, end - 1],
        &[1, 2, 70, end],
    ] {
        let mut bitmap = vec![0; end.div_ceil(8) as usize];
        for run in places.chunks(2) {
            blacken(&mut bitmap, run[0], run[1]);
        }
        let data = encode_bitmap(&bitmap, writing(end)).unwrap();
        let mut context = DecoderContext::new(reading(end, 1, EncodingMode::Group4));
        let mut painted = vec![0x55; bitmap.len()];
        let layout = PackedLayout::default();
        let decoded = decode_packed_into(&data, &mut context, layout, &mut painted);
        assert_eq!(decoded, (1, Ok(data.len())), "{places:?}");
        assert!(bitmap == painted, "{places:?}");
    }
}

/// The most bytes whose bits a `usize` of 32 bits counts, with 64 more.
const MOST: usize = (u32::MAX as usize - 64) / 8;

struct Count(u64);

impl Decoder for Count {
    fn push_row(&mut self, _: &[u32]) {
        self.0 += 1;
    }
}

/// As much data as has offsets, and a byte more: fill (T.4, 4.1.3), and at its end an EOL and a white row of eight pixels.
fn longest_data() {
    let mut data = vec![0; MOST + 1];
    let line = [0x00, 0x33];
    let settings = reading(8, 0, EncodingMode::Group3_1D);
    data[MOST - 2..MOST].copy_from_slice(&line);
    let whole = &data[..MOST];
    let mut rows = Count(0);
    let mut context = DecoderContext::new(settings);
    let answer = decode(whole, &mut rows, &mut context);
    assert_eq!((answer, rows.0), (Ok(MOST), 1));
    let packed = decode_packed(whole, &mut DecoderContext::new(settings));
    assert_eq!(
        (packed.rows, packed.bytes, packed.result),
        (1, vec![0], Ok(MOST))
    );
    let mut reader = RowReader::new(whole, settings);
    assert_eq!(reader.next_row(), Ok(Some(&[][..])));
    assert_eq!(reader.next_row(), Ok(None));
    feed_longest(whole, settings);
    if usize::BITS == 32 {
        let overflow = DecodeError::Overflow;
        let mut context = DecoderContext::new(settings);
        assert_eq!(decode(&data, &mut rows, &mut context), Err(overflow));
        for rows in [0, 1] {
            let settings = DecodeSettings { rows, ..settings };
            let packed = decode_packed(&data, &mut DecoderContext::new(settings));
            assert_eq!((packed.rows, packed.result), (0, Err(overflow)));
        }
        let into = decode_packed_into(&data, &mut context, PackedLayout::default(), &mut [0; 9]);
        assert_eq!(into, (0, Err(IntoError::Data(overflow))));
        assert_eq!(RowReader::new(&data, settings).next_row(), Err(overflow));
    }
}

/// Feeds data of which most is fill: in pieces, and then a byte that is too much for 32 bits.
fn feed_longest(data: &[u8], settings: DecodeSettings) {
    let mut feed = RowFeed::new(settings);
    for piece in data.chunks(1 << 26) {
        assert_eq!(feed.next_row(), Ok(Fed::NeedsMore));
        feed.feed(piece).unwrap();
    }
    assert_eq!(feed.next_row(), Ok(Fed::Row(&[][..])));
    assert_eq!(feed.line_start(), 8 * data.len() - 5);
    if usize::BITS == 32 {
        assert_eq!(feed.feed(&[0]), Err(FeedError::Data(DecodeError::Overflow)));
    }
    feed.finish();
    assert_eq!(feed.next_row(), Ok(Fed::End));
}

fn main() {
    let named = std::env::args().nth(1);
    let parts: [(&str, fn()); 3] = [
        ("strides", far_strides),
        ("rows", longest_rows),
        ("data", longest_data),
    ];
    for (name, check) in parts {
        if named.as_ref().is_none_or(|named| named == name) {
            check();
            println!("{name}");
        }
    }
}
