//! Random cases: pictures that are encoded, whole or damaged, and bytes of no meaning, with random settings. What every call answers goes
//! into a sum.

use hayro_ccitt::{
    DecodeError, DecodeSettings, Decoder, DecoderContext, EncodeSettings, EncodingMode, Fed,
    FeedError, RowFeed, RowReader, decode, decode_low_first, decode_packed,
    decode_packed_low_first, encode_bitmap,
};

struct Random(u64);

impl Random {
    fn next(&mut self) -> u64 {
        self.0 ^= self.0 << 13;
        self.0 ^= self.0 >> 7;
        self.0 ^= self.0 << 17;
        self.0.wrapping_mul(0x2545_F491_4F6C_DD1D)
    }

    fn below(&mut self, limit: u64) -> u64 {
        (self.next() >> 11) % limit
    }

    fn happens(&mut self, percent: u64) -> bool {
        self.below(100) < percent
    }
}

/// FNV-1a of 64 bits.
struct Sum(u64);

impl Sum {
    fn add(&mut self, number: u64) {
        for byte in number.to_le_bytes() {
            self.0 = (self.0 ^ u64::from(byte)).wrapping_mul(0x100_0000_01b3);
        }
    }

    fn add_bytes(&mut self, bytes: &[u8]) {
        for byte in bytes {
            self.add(u64::from(*byte));
        }
    }

    fn add_offset(&mut self, offset: Option<usize>) {
        self.add(offset.map_or(u64::MAX, |offset| offset as u64));
    }

    fn add_error(&mut self, error: DecodeError) {
        self.add(match error {
            DecodeError::UnexpectedEof => 101,
            DecodeError::InvalidCode => 102,
            DecodeError::Overflow => 103,
        });
    }

    fn add_answer(&mut self, answer: Result<usize, DecodeError>, context: &DecoderContext) {
        match answer {
            Ok(bytes_read) => self.add(bytes_read as u64),
            Err(error) => self.add_error(error),
        }
        self.add(context.damaged_rows());
        self.add(context.missed_eols());
        self.add(context.cut_rows());
        self.add_offset(context.fault_start());
    }
}

impl Decoder for Sum {
    fn push_row(&mut self, changes: &[u32]) {
        self.add(changes.len() as u64 | 1 << 40);
        for change in changes {
            self.add(u64::from(*change));
        }
    }
}

/// Data, and how it is read.
struct Case {
    data: Vec<u8>,
    settings: DecodeSettings,
    is_low_first: bool,
}

fn columns_of(random: &mut Random) -> u32 {
    match random.below(20) {
        0 => random.below(5) as u32,
        1..=8 => 1 + random.below(80) as u32,
        9..=17 => 1 + random.below(2700) as u32,
        18 => 60_000 + random.below(20_000) as u32,
        _ => u32::MAX - random.below(70_000) as u32,
    }
}

fn bitmap_of(random: &mut Random, width: usize) -> Vec<u8> {
    let rows = 1 + random.below(if width > 2000 { 3 } else { 30 }) as usize;
    let mut bitmap = vec![0; width * rows];
    let kind = random.below(4);
    for row in 0..rows {
        let start = row * width;
        if kind == 3 && row > 0 && random.happens(50) {
            bitmap.copy_within(start - width..start, start);
            continue;
        }
        for byte in &mut bitmap[start..start + width] {
            *byte = match kind {
                0 => random.next() as u8,
                1 if random.happens(90) => 0,
                1 => random.next() as u8,
                _ if random.happens(97) => 0,
                _ => 255,
            };
        }
    }
    bitmap
}

fn damage(random: &mut Random, data: &mut Vec<u8>) {
    for _ in 0..1 + random.below(4) {
        let place = random.below(data.len() as u64) as usize;
        match random.below(4) {
            0 => data[place] ^= 1 << random.below(8),
            1 => data[place] = random.next() as u8,
            2 => data.truncate(place + 1),
            _ => data.insert(place, 0),
        }
    }
}

fn case_of(random: &mut Random, sum: &mut Sum) -> Case {
    let columns = columns_of(random);
    let encoding = [
        EncodingMode::Group4,
        EncodingMode::Group3_1D,
        EncodingMode::Group3_2D,
    ][random.below(3) as usize];
    let (is_low_first, is_aligned) = (random.happens(30), random.happens(25));
    let (has_eols, is_closed) = (random.happens(60), random.happens(50));
    let width = columns.div_ceil(8) as usize;
    let mut data = Vec::new();
    if width > 0 && width < 20_000 && random.happens(85) {
        let bitmap = bitmap_of(random, width);
        let settings = EncodeSettings {
            columns,
            encoding,
            k: 1 + random.below(5) as u32,
            end_of_line: has_eols && encoding != EncodingMode::Group4
                || encoding == EncodingMode::Group3_2D,
            eols_end_at_bytes: false,
            rows_are_byte_aligned: is_aligned,
            end_of_block: is_closed,
            low_first: is_low_first,
            shortest: random.happens(30),
        };
        match encode_bitmap(&bitmap, settings) {
            Ok(bytes) => data = bytes,
            Err(error) => sum.add(error as u64 + 500),
        }
        sum.add_bytes(&data);
    } else {
        data.extend((0..random.below(200)).map(|_| random.next() as u8));
    }
    if !data.is_empty() && random.happens(70) {
        damage(random, &mut data);
    }
    let settings = DecodeSettings {
        columns,
        rows: if random.happens(50) {
            0
        } else {
            random.below(40) as u32
        },
        end_of_block: is_closed,
        end_of_line: has_eols ^ random.happens(10),
        rows_are_byte_aligned: is_aligned ^ random.happens(5),
        encoding,
        strict: random.happens(40),
    };
    Case {
        data,
        settings,
        is_low_first,
    }
}

fn decode_whole(case: &Case, sum: &mut Sum) {
    let mut context = DecoderContext::new(case.settings);
    let answer = if case.is_low_first {
        decode_low_first(&case.data, sum, &mut context)
    } else {
        decode(&case.data, sum, &mut context)
    };
    sum.add_answer(answer, &context);
    if case.settings.columns > 160_000 {
        return;
    }
    let packed = if case.is_low_first {
        decode_packed_low_first(&case.data, &mut context)
    } else {
        decode_packed(&case.data, &mut context)
    };
    sum.add(packed.rows as u64);
    sum.add_bytes(&packed.bytes);
    sum.add_answer(packed.result, &context);
}

fn read_rows(case: &Case, sum: &mut Sum) {
    let mut rows = if case.is_low_first {
        RowReader::new_low_first(&case.data, case.settings)
    } else {
        RowReader::new(&case.data, case.settings)
    };
    loop {
        match rows.next_row() {
            Ok(Some(changes)) => sum.push_row(changes),
            Ok(None) => return,
            Err(error) => return sum.add_error(error),
        }
        sum.add(rows.line_start() as u64);
        sum.add(rows.bytes_read() as u64);
        sum.add_offset(rows.missed_eol());
    }
}

fn feed_pieces(case: &Case, random: &mut Random, sum: &mut Sum) {
    let mut feed = if case.is_low_first {
        RowFeed::new_low_first(case.settings)
    } else {
        RowFeed::new(case.settings)
    };
    let most = [1, 3, 17, 5000][random.below(4) as usize];
    let mut rest = &case.data[..];
    loop {
        match feed.next_row() {
            Ok(Fed::Row(changes)) => sum.push_row(changes),
            Ok(Fed::End) => break,
            Ok(Fed::NeedsMore) if rest.is_empty() => feed.finish(),
            Ok(Fed::NeedsMore) => {
                let length = rest.len().min(1 + random.below(most) as usize);
                feed.feed(&rest[..length]).unwrap();
                rest = &rest[length..];
            }
            Err(FeedError::Data(error)) => {
                sum.add_error(error);
                break;
            }
            Err(error) => panic!("{error}"),
        }
        sum.add(feed.bytes_read() as u64);
    }
    sum.add(feed.line_start() as u64);
}

/// Returns the sum over as many cases: each is decoded whole and row by row, and fed in pieces.
pub fn sum_of(seed: u64, count: u64) -> u64 {
    let (mut random, mut sum) = (Random(seed | 1), Sum(0xcbf2_9ce4_8422_2325));
    for _ in 0..count {
        let case = case_of(&mut random, &mut sum);
        decode_whole(&case, &mut sum);
        read_rows(&case, &mut sum);
        feed_pieces(&case, &mut random, &mut sum);
    }
    sum.0
}
