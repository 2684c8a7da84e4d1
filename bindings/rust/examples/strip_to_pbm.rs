//! Decodes a strip of fax data on standard input to a PBM picture on standard output:
//!
//!     cargo run --example strip_to_pbm -- MODE COLUMNS ROWS FLAGS < strip > picture.pbm
//!
//! MODE is g4, 1d or 2d. ROWS is the largest number of rows, 0 for no limit. FLAGS is - or letters: b (EOFB or RTC may end
//! the data), l (an EOL precedes each line), a (rows are aligned to bytes), s (strict), r (lowest bit first). The status is 0 if
//! the data was decoded, 1 after a fault in the data, whose rows before the fault are written, and 2 for wrong arguments.

use hayro_ccitt::{
    DecodeSettings, Decoder, DecoderContext, EncodingMode, decode, decode_low_first,
};
use std::io::{self, Read, Write};
use std::process::ExitCode;

/// Packed rows, 1 for black, the leftmost pixel in a byte's highest bit.
struct Bitmap {
    columns: u32,
    rows: usize,
    bytes: Vec<u8>,
}

impl Decoder for Bitmap {
    fn push_row(&mut self, changes: &[u32]) {
        let start = self.bytes.len();
        self.bytes
            .resize(start + self.columns.div_ceil(8) as usize, 0);
        for run in changes.chunks(2) {
            for place in run[0]..run.get(1).copied().unwrap_or(self.columns) {
                self.bytes[start + place as usize / 8] |= 0x80 >> (place % 8);
            }
        }
        self.rows += 1;
    }
}

fn settings_of(words: &[String]) -> Option<DecodeSettings> {
    let [mode, columns, rows, flags] = words else {
        return None;
    };
    let flags = flags.strip_prefix('-').unwrap_or(flags);
    Some(DecodeSettings {
        columns: columns.parse().ok()?,
        rows: rows.parse().ok()?,
        end_of_block: flags.contains('b'),
        end_of_line: flags.contains('l'),
        rows_are_byte_aligned: flags.contains('a'),
        encoding: match mode.as_str() {
            "g4" => EncodingMode::Group4,
            "1d" => EncodingMode::Group3_1D,
            "2d" => EncodingMode::Group3_2D,
            _ => return None,
        },
        strict: flags.contains('s'),
    })
    .filter(|_| flags.chars().all(|flag| "blasr".contains(flag)))
}

fn main() -> io::Result<ExitCode> {
    let words: Vec<String> = std::env::args().skip(1).collect();
    let Some(settings) = settings_of(&words) else {
        eprintln!("usage: strip_to_pbm MODE COLUMNS ROWS FLAGS");
        return Ok(ExitCode::from(2));
    };
    let mut data = Vec::new();
    io::stdin().read_to_end(&mut data)?;

    let mut bitmap = Bitmap {
        columns: settings.columns,
        rows: 0,
        bytes: Vec::new(),
    };
    let mut context = DecoderContext::new(settings);
    let answer = if words[3].contains('r') {
        decode_low_first(&data, &mut bitmap, &mut context)
    } else {
        decode(&data, &mut bitmap, &mut context)
    };

    let mut out = io::stdout().lock();
    write!(out, "P4\n{} {}\n", bitmap.columns, bitmap.rows)?;
    out.write_all(&bitmap.bytes)?;
    Ok(match answer {
        Ok(_) => ExitCode::SUCCESS,
        Err(error) => {
            eprintln!("strip_to_pbm: {error}");
            ExitCode::FAILURE
        }
    })
}
