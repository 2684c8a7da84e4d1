//! The Rust crate `hayro-ccitt` behind the calls that `driver.c` names, with a sink that counts and one that paints.

use hayro_ccitt::{DecodeError, DecodeSettings, Decoder, DecoderContext, EncodingMode, decode};
use std::slice;

#[repr(C)]
pub struct Settings {
    columns: u32,
    rows: u32,
    encoding: u32,
    flags: u32,
}

#[repr(C)]
#[derive(Default)]
pub struct Outcome {
    rows: u64,
    changes: u64,
    bytes_read: u64,
    damaged_rows: u64,
    fault_start: u64,
    reserved: u64,
}

struct Count<'a>(&'a mut Outcome);

impl Decoder for Count<'_> {
    fn push_row(&mut self, changes: &[u32]) {
        self.0.rows += 1;
        self.0.changes += changes.len() as u64;
    }
}

/// Rows of zeros, into which each black run is painted: the bits of its first and its last byte, and whole bytes between.
struct Paint<'a> {
    rows: slice::ChunksExactMut<'a, u8>,
    columns: usize,
    outcome: &'a mut Outcome,
}

impl Decoder for Paint<'_> {
    fn push_row(&mut self, changes: &[u32]) {
        self.outcome.rows += 1;
        self.outcome.changes += changes.len() as u64;
        let Some(row) = self.rows.next() else { return };
        row.fill(0);
        for run in changes.chunks(2) {
            let start = run[0] as usize;
            let end = run.get(1).map_or(self.columns, |end| *end as usize);
            let first = 0xFFu8 >> (start % 8);
            let last = !(0xFFu8 >> (end % 8));
            if start / 8 == end / 8 {
                row[start / 8] |= first & last;
                continue;
            }
            row[start / 8] |= first;
            row[start / 8 + 1..end / 8].fill(0xFF);
            if last != 0 {
                row[end / 8] |= last;
            }
        }
    }
}

fn status(data: &[u8], settings: &Settings, sink: &mut impl Decoder) -> u32 {
    let mut context = DecoderContext::new(DecodeSettings {
        columns: settings.columns,
        rows: settings.rows,
        end_of_block: settings.flags & 1 != 0,
        end_of_line: settings.flags & 2 != 0,
        rows_are_byte_aligned: settings.flags & 4 != 0,
        strict: settings.flags & 8 != 0,
        encoding: [EncodingMode::Group4, EncodingMode::Group3_1D, EncodingMode::Group3_2D][settings.encoding as usize],
    });
    match decode(data, sink, &mut context) {
        Ok(_) => 0,
        Err(DecodeError::UnexpectedEof) => 1,
        Err(DecodeError::InvalidCode) => 2,
        Err(DecodeError::Overflow) => 3,
    }
}

/// # Safety
/// `data` is valid for its length.
#[unsafe(no_mangle)]
pub unsafe extern "C" fn crate_measure(data: *const u8, length: usize, settings: &Settings, outcome: &mut Outcome) -> u32 {
    *outcome = Outcome::default();
    status(unsafe { slice::from_raw_parts(data, length) }, settings, &mut Count(outcome))
}

/// # Safety
/// `data` and `bitmap` are valid for their lengths, and don't overlap.
#[unsafe(no_mangle)]
pub unsafe extern "C" fn crate_decode_packed(
    data: *const u8,
    length: usize,
    settings: &Settings,
    bitmap: *mut u8,
    room: usize,
    outcome: &mut Outcome,
) -> u32 {
    *outcome = Outcome::default();
    let columns = settings.columns as usize;
    let rows = unsafe { slice::from_raw_parts_mut(bitmap, room) }.chunks_exact_mut(columns.div_ceil(8).max(1));
    let data = unsafe { slice::from_raw_parts(data, length) };
    status(data, settings, &mut Paint { rows, columns, outcome })
}
