//! PDF's filter CCITTFaxDecode: decodes a stream on standard input to samples on standard output.
//!
//!     cargo run --example pdf_filter -- HEIGHT KEY=VALUE.. < stream > samples
//!
//! The keys are those of DecodeParms: K, Columns, Rows, EndOfLine, EncodedByteAlign, EndOfBlock and BlackIs1; HEIGHT is the image's.
//! There are HEIGHT rows of samples, one bit each, from the highest bit of each byte: those that are missing are white.

use hayro_ccitt::{DecodeSettings, DecoderContext, EncodingMode, PackedLayout, decode_packed_into};
use std::io::{self, Read, Write};
use std::process::ExitCode;

/// DecodeParms of CCITTFaxDecode, with its defaults (PDF 32000-1, table 11).
struct Parms {
    k: i32,
    columns: u32,
    rows: u32,
    end_of_line: bool,
    encoded_byte_align: bool,
    end_of_block: bool,
    black_is_1: bool,
}

impl Default for Parms {
    fn default() -> Self {
        Self {
            k: 0,
            columns: 1728,
            rows: 0,
            end_of_line: false,
            encoded_byte_align: false,
            end_of_block: true,
            black_is_1: false,
        }
    }
}

impl Parms {
    /// Sets a key, given as `KEY=VALUE`.
    fn set(&mut self, word: &str) -> Option<()> {
        let (key, value) = word.split_once('=')?;
        match key {
            "K" => self.k = value.parse().ok()?,
            "Columns" => self.columns = value.parse().ok()?,
            "Rows" => self.rows = value.parse().ok()?,
            "EndOfLine" => self.end_of_line = value.parse().ok()?,
            "EncodedByteAlign" => self.encoded_byte_align = value.parse().ok()?,
            "EndOfBlock" => self.end_of_block = value.parse().ok()?,
            "BlackIs1" => self.black_is_1 = value.parse().ok()?,
            _ => return None,
        }
        Some(())
    }

    fn settings(&self, height: u32) -> DecodeSettings {
        DecodeSettings {
            columns: self.columns,
            rows: if self.rows == 0 { height } else { self.rows },
            end_of_block: self.end_of_block,
            end_of_line: self.end_of_line,
            rows_are_byte_aligned: self.encoded_byte_align,
            encoding: match self.k {
                ..0 => EncodingMode::Group4,
                0 => EncodingMode::Group3_1D,
                1.. => EncodingMode::Group3_2D,
            },
            strict: false,
        }
    }
}

/// Decodes a stream to the samples of an image of this height. The rows before a fault are shown, and the rest is white.
fn ccitt_fax_decode(data: &[u8], parms: &Parms, height: u32) -> Vec<u8> {
    let width = parms.columns.div_ceil(8) as usize;
    let white = if parms.black_is_1 { 0x00 } else { 0xFF };
    let mut samples = vec![white; width * height as usize];
    let layout = PackedLayout {
        stride: 0,
        black_is_0: !parms.black_is_1,
    };
    let mut context = DecoderContext::new(parms.settings(height));
    let _ = decode_packed_into(data, &mut context, layout, &mut samples);
    samples
}

fn main() -> io::Result<ExitCode> {
    let words: Vec<String> = std::env::args().skip(1).collect();
    let mut parms = Parms::default();
    let height = words.first().and_then(|word| word.parse().ok());
    let is_set = words.iter().skip(1).all(|word| parms.set(word).is_some());
    let (Some(height), true) = (height, is_set) else {
        eprintln!("usage: pdf_filter HEIGHT KEY=VALUE..");
        return Ok(ExitCode::from(2));
    };
    let mut data = Vec::new();
    io::stdin().read_to_end(&mut data)?;
    io::stdout()
        .lock()
        .write_all(&ccitt_fax_decode(&data, &parms, height))?;
    Ok(ExitCode::SUCCESS)
}
