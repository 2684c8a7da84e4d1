//! Strips of the corpus, decoded as a program on the crate `hayro-ccitt` 0.5.0 does it, with its names alone. What came of each goes into a
//! sum.

use hayro_ccitt::{DecodeSettings, Decoder, DecoderContext, EncodingMode, decode};

/// Data and the settings by which it is read: columns, rows, 0 for Group 4, 1 for Group 3 in one dimension, 2 for two, and letters.
type Strip = (&'static [u8], u32, u32, u32, &'static str);

// `STRIPS: &[Strip]`, which the check writes of the corpus.
include!(env!("STRIPS"));

struct Sum(u64);

impl Sum {
    fn add(&mut self, number: u64) {
        self.0 = (self.0 ^ number).wrapping_mul(0x100_0000_01b3);
    }
}

impl Decoder for Sum {
    fn push_row(&mut self, changes: &[u32]) {
        self.add(changes.len() as u64);
        for change in changes {
            self.add(u64::from(*change));
        }
    }
}

/// Returns the sum of the rows of a strip, and at last the number of bytes read, 0 with a row limit, or 2^63 after an error; or `None` if
/// there is no such strip.
pub fn sum_of(index: usize) -> Option<u64> {
    let (data, columns, rows, encoding, letters) = *STRIPS.get(index)?;
    let mut context = DecoderContext::new(DecodeSettings {
        columns,
        rows,
        end_of_block: letters.contains('b'),
        end_of_line: letters.contains('l'),
        rows_are_byte_aligned: letters.contains('a'),
        encoding: [
            EncodingMode::Group4,
            EncodingMode::Group3_1D,
            EncodingMode::Group3_2D,
        ][encoding as usize],
        strict: letters.contains('s'),
    });
    let mut sum = Sum(1);
    let answer = decode(data, &mut sum, &mut context);
    sum.add(match answer {
        Ok(bytes_read) if rows == 0 => bytes_read as u64,
        Ok(_) => 0,
        Err(_) => 1 << 63,
    });
    Some(sum.0)
}
