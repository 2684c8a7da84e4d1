//! One decoding by the Cargo package, for callgrind to count its instructions; `package.py` runs it.

use hayro_ccitt::{DecodeSettings, Decoder, DecoderContext, EncodingMode, decode, decode_packed};

/// Counts the rows and their changes.
struct Count(usize);

impl Decoder for Count {
    fn push_row(&mut self, changes: &[u32]) {
        self.0 += 1 + changes.len();
    }
}

#[unsafe(no_mangle)]
#[inline(never)]
fn measured(decoder: &str, data: &[u8], context: &mut DecoderContext) -> usize {
    match decoder {
        "changes" => {
            let mut count = Count(0);
            decode(data, &mut count, context).unwrap();
            count.0
        }
        _ => decode_packed(data, context).bytes.len(),
    }
}

fn main() {
    let words: Vec<String> = std::env::args().collect();
    let encoding = match words[2].as_str() {
        "0" => EncodingMode::Group4,
        "1" => EncodingMode::Group3_1D,
        _ => EncodingMode::Group3_2D,
    };
    let flags: u32 = words[5].parse().unwrap();
    let mut context = DecoderContext::new(DecodeSettings {
        columns: words[3].parse().unwrap(),
        rows: words[4].parse().unwrap(),
        end_of_block: flags & 1 != 0,
        end_of_line: flags & 2 != 0,
        rows_are_byte_aligned: false,
        encoding,
        strict: false,
    });
    let data = std::fs::read(&words[6]).unwrap();
    println!("{}", measured(&words[1], &data, &mut context));
}
