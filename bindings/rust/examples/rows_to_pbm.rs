//! Decodes fax data on standard input to a PBM picture on standard output, each row as soon as its data is there:
//!
//!     cargo run --features std --example rows_to_pbm -- MODE COLUMNS ROWS FLAGS < data > picture.pbm
//!
//! MODE is g4, 1d or 2d. ROWS is the number of rows: those that are missing are white. FLAGS is - or letters: b (EOFB or RTC may
//! end the data), l (an EOL precedes each line), a (rows are aligned to bytes), s (strict), r (lowest bit first). The status is 0
//! if the data was decoded, 1 after a fault in the data, and 2 for wrong arguments. What follows the image isn't read.

use hayro_ccitt::{DecodeSettings, EncodingMode, ReadError, RowsFrom};
use std::io::{self, BufRead, Write};
use std::process::ExitCode;

fn settings_of(words: &[String]) -> Option<DecodeSettings> {
    let [mode, columns, rows, flags] = words else {
        return None;
    };
    let flags = flags.strip_prefix('-').unwrap_or(flags);
    Some(DecodeSettings {
        columns: columns.parse().ok()?,
        rows: rows.parse().ok().filter(|rows| *rows > 0)?,
        end_of_block: flags.contains('b'),
        end_of_line: flags.contains('l'),
        rows_are_byte_aligned: flags.contains('a'),
        encoding: match mode.as_str() {
            "g4" => EncodingMode::Group4,
            "1d" => EncodingMode::Group3_1D,
            "2d" => EncodingMode::Group3_2D,
            _ => return None,
        },
        strict: flags.contains('s'),
    })
    .filter(|_| flags.chars().all(|flag| "blasr".contains(flag)))
}

/// Writes each row as it comes.
fn write_rows(rows: &mut RowsFrom<impl BufRead>, out: &mut impl Write) -> Result<(), ReadError> {
    while let Some(row) = rows.next_packed()? {
        out.write_all(row).map_err(ReadError::Io)?;
        out.flush().map_err(ReadError::Io)?;
    }
    Ok(())
}

fn main() -> io::Result<ExitCode> {
    let words: Vec<String> = std::env::args().skip(1).collect();
    let Some(settings) = settings_of(&words) else {
        eprintln!("usage: rows_to_pbm MODE COLUMNS ROWS FLAGS");
        return Ok(ExitCode::from(2));
    };
    let data = io::stdin().lock();
    let mut rows = if words[3].contains('r') {
        RowsFrom::new_low_first(data, settings)
    } else {
        RowsFrom::new(data, settings)
    };
    let mut out = io::stdout().lock();
    write!(out, "P4\n{} {}\n", settings.columns, settings.rows)?;
    let status = match write_rows(&mut rows, &mut out) {
        Ok(()) => ExitCode::SUCCESS,
        Err(ReadError::Io(error)) => return Err(error),
        Err(error) => {
            eprintln!("rows_to_pbm: {error}");
            ExitCode::FAILURE
        }
    };
    let white = vec![0; settings.columns.div_ceil(8) as usize];
    for _ in rows.rows_read()..u64::from(settings.rows) {
        out.write_all(&white)?;
    }
    Ok(status)
}
