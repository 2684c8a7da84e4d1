//! A decoder for CCITT fax images: ITU-T T.4 (Group 3) and T.6 (Group 4), the bi-level compressions of fax machines, TIFF files
//! and PDF documents.
//!
//! [`decode`] takes encoded data and a [`DecoderContext`], and passes each row to a [`Decoder`] as the positions at which its
//! colour changes. [`decode_packed`] returns a bitmap instead, and [`encode_bitmap`] encodes one. [`RowReader`] reads one row at a
//! time, [`RowFeed`] from data that comes in pieces, and `RowsFrom`, with the feature `std`, from any `BufRead`. The module
//! [`conforms`] says whether an encoder that wrote some data kept the rules.
//!
//! The names are those of the crate `hayro-ccitt` 0.5.0, and a program that uses that crate needs no change. What runs is a C
//! library that is proved: unless memory or room runs out, its rows, results and byte counts are those that a formalization of T.4
//! and T.6 prescribes, and no input makes it panic, loop, or read outside of its memory.
//!
//! # Example
//!
//! Two bytes of Group 4 are a row of eight pixels: three white, two black, three white.
//!
//! ```
//! use hayro_ccitt::{decode, DecodeSettings, Decoder, DecoderContext, EncodingMode};
//!
//! struct Rows(Vec<Vec<u32>>);
//!
//! impl Decoder for Rows {
//!     fn push_row(&mut self, changes: &[u32]) {
//!         self.0.push(changes.to_vec());
//!     }
//! }
//!
//! let mut context = DecoderContext::new(DecodeSettings {
//!     columns: 8,
//!     rows: 1,
//!     end_of_block: false,
//!     end_of_line: false,
//!     rows_are_byte_aligned: false,
//!     encoding: EncodingMode::Group4,
//!     strict: false,
//! });
//! let mut rows = Rows(Vec::new());
//! let bytes_read = decode(&[0x31, 0xC0], &mut rows, &mut context)?;
//! assert_eq!(bytes_read, 2);
//! assert_eq!(rows.0, [[3, 5]]);
//! # Ok::<(), hayro_ccitt::DecodeError>(())
//! ```
//!
//! # Differences from that crate
//!
//! If an allocation fails, the program ends, as with a [`Vec`]; a [`RowFeed`] returns an error instead.
//! `decode_low_first`, [`decode_packed`], [`decode_packed_into`], [`RowReader`], [`RowFeed`], `RowsFrom`, [`DecoderContext::damaged_rows`],
//! [`DecoderContext::missed_eols`], [`DecoderContext::cut_rows`], [`DecoderContext::fault_start`], [`encode_bitmap`] and
//! [`encode_bitmap_from`] are added, and the module [`conforms`]. The package is `no_std` without the feature `std`, and needs an allocator and a C compiler.

#![no_std]
#![warn(missing_docs)]
#![deny(unsafe_op_in_unsafe_fn)]

extern crate alloc;
#[cfg(feature = "std")]
extern crate std;

mod c;
mod calls;
pub mod conforms;
mod encoding;
mod packed_into;
mod pushed;
mod row_feed;
mod row_reader;
#[cfg(feature = "std")]
mod rows_from;
mod settings;
mod told;

pub use encoding::{EncodeError, EncodeSettings, encode_bitmap, encode_bitmap_from};
pub use packed_into::{IntoError, PackedLayout, decode_packed_into, decode_packed_into_low_first};
pub use row_feed::{Fed, FeedError, RowFeed};
pub use row_reader::RowReader;
#[cfg(feature = "std")]
pub use rows_from::{ReadError, RowsFrom};

use alloc::alloc::{Layout, handle_alloc_error};
use alloc::vec::Vec;
use core::fmt;

/// Decodes an image, and returns the number of bytes that were read.
///
/// Each row is passed to the decoder once, from the top. The context may be used again, also after an error.
///
/// # Errors
///
/// An error says that the data is damaged, or isn't what the settings say. The rows before it were passed to the decoder, and can be used:
/// they are the image as far as it goes. `columns` 0 is `Ok(0)`.
pub fn decode(data: &[u8], decoder: &mut impl Decoder, ctx: &mut DecoderContext) -> Result<usize> {
    let settings = c::Settings::from(&ctx.settings);
    push_rows(data, decoder, ctx, settings)
}

/// Decodes as [`decode`] does, with the lowest bit of each byte first, as in TIFF files of FillOrder 2.
///
/// # Errors
///
/// Those of [`decode`].
pub fn decode_low_first(
    data: &[u8],
    decoder: &mut impl Decoder,
    ctx: &mut DecoderContext,
) -> Result<usize> {
    let settings = c::Settings::from(&ctx.settings).low_first();
    push_rows(data, decoder, ctx, settings)
}

/// The rows of an image as a bitmap.
#[derive(Clone, Debug, PartialEq, Eq)]
pub struct PackedRows {
    /// The number of rows.
    pub rows: usize,
    /// The rows, from the top, `columns.div_ceil(8)` bytes each: one bit a pixel, 1 for black, the leftmost pixel in a byte's
    /// highest bit, and zeros after the last pixel.
    pub bytes: Vec<u8>,
    /// What [`decode`] returns for the same data. After an error, the rows before it are here.
    pub result: Result<usize>,
}

/// Decodes an image to a bitmap, in memory for the bitmap.
///
/// # Example
///
/// ```
/// # use hayro_ccitt::{decode_packed, DecodeSettings, DecoderContext, EncodingMode};
/// # let mut context = DecoderContext::new(DecodeSettings {
/// #     columns: 8, rows: 1, end_of_block: false, end_of_line: false, rows_are_byte_aligned: false,
/// #     encoding: EncodingMode::Group4, strict: false,
/// # });
/// let image = decode_packed(&[0x31, 0xC0], &mut context);
/// assert_eq!(image.bytes, [0b00011000]);
/// assert_eq!(image.result, Ok(2));
/// ```
pub fn decode_packed(data: &[u8], ctx: &mut DecoderContext) -> PackedRows {
    pack_rows(data, ctx, c::Settings::from(&ctx.settings))
}

/// Decodes to a bitmap with the lowest bit of each byte of the data first. The bitmap's leftmost pixel is in the highest bit all
/// the same.
pub fn decode_packed_low_first(data: &[u8], ctx: &mut DecoderContext) -> PackedRows {
    pack_rows(data, ctx, c::Settings::from(&ctx.settings).low_first())
}

/// How many bytes of the data are fed at a time, where not all rows are decoded at once.
const PIECE: usize = 1 << 16;

fn push_rows(
    data: &[u8],
    decoder: &mut impl Decoder,
    ctx: &mut DecoderContext,
    settings: c::Settings,
) -> Result<usize> {
    ctx.damaged_rows = 0;
    ctx.missed_eols = 0;
    ctx.cut_rows = 0;
    ctx.fault_start = None;
    pushed::push_rows(data, decoder, ctx, &settings)
}

/// Feeds the next piece of the data, or finishes it after the last one.
fn feed_next(feed: &mut c::Feed, piece: Option<&[u8]>) {
    let Some(piece) = piece else {
        return feed.finish();
    };
    if feed.feed(piece) != c::OK {
        out_of_memory::<u8>(piece.len());
    }
}

fn pack_rows(data: &[u8], ctx: &mut DecoderContext, settings: c::Settings) -> PackedRows {
    let width = ctx.settings.columns.div_ceil(8) as usize;
    let mut packed = match room_for_all(data, &ctx.settings, width) {
        Some(room) => pack_at_once(data, ctx, &settings, zeros(room)),
        None => pack_as_they_come(data, ctx, &settings, width),
    };
    packed.bytes.truncate(packed.rows * width);
    packed.bytes.shrink_to_fit();
    packed
}

/// Returns the length of a bitmap of as many rows as there may be, if that is usual: up to 16 MiB, or 64 times the length of the
/// data, and no more than a sixteenth of the address space. There may be as many as the limit, and one more than the data has
/// bits. With more room nothing is allocated for rows that may not come. Of data that is too long there is none.
fn room_for_all(data: &[u8], settings: &DecodeSettings, width: usize) -> Option<usize> {
    if data.len() > MOST_BYTES {
        return Some(0);
    }
    let limit = match settings.rows {
        0 => usize::MAX,
        rows => rows as usize,
    };
    let rows = limit.min(data.len().saturating_mul(8).saturating_add(1));
    let usual = data
        .len()
        .saturating_mul(64)
        .clamp(1 << 24, usize::MAX / 16);
    rows.checked_mul(width).filter(|room| *room <= usual)
}

/// Packs all rows into this bitmap, which has room for them.
fn pack_at_once(
    data: &[u8],
    ctx: &mut DecoderContext,
    settings: &c::Settings,
    mut bytes: Vec<u8>,
) -> PackedRows {
    let (status, outcome) = c::decode_packed(data, settings, &mut bytes);
    let result = match status {
        // It is at most the length of the data.
        c::OK => Ok(outcome.bytes_read as usize),
        _ => Err(error_of(status)),
    };
    ctx.tell(&outcome, result.is_err());
    PackedRows {
        rows: usize_of(outcome.rows),
        bytes,
        result,
    }
}

/// Packs the rows into a bitmap that grows as they come.
fn pack_as_they_come(
    data: &[u8],
    ctx: &mut DecoderContext,
    settings: &c::Settings,
    width: usize,
) -> PackedRows {
    let mut feed = open_feed(settings);
    let mut pieces = data.chunks(PIECE);
    let mut bytes: Vec<u8> = Vec::new();
    let mut rows = 0;
    let status = loop {
        let (status, count) = feed.rows_packed(&mut bytes[rows * width..]);
        rows += count;
        match status {
            // The next call packs the row for which there was no room.
            c::OK | c::REFUSED => bytes.resize(more_rows(rows).saturating_mul(width), 0),
            c::NEEDS_MORE => feed_next(&mut feed, pieces.next()),
            status => break status,
        }
    };
    PackedRows {
        rows,
        bytes,
        result: ctx.tell_of(&feed.row, status),
    }
}

/// Returns for how many rows there is to be room where there was room for so many.
fn more_rows(rows: usize) -> usize {
    rows.saturating_mul(2).max(64)
}

/// Opens a reader of data in pieces. The settings are valid; so if it can't, an allocation failed.
fn open_feed(settings: &c::Settings) -> c::Feed {
    match c::Feed::open(settings) {
        Ok(feed) => feed,
        Err(_) => out_of_memory::<u8>(0),
    }
}

/// Opens a reader. The settings are valid; so if it can't, an allocation failed.
fn open_rows<'a>(data: &'a [u8], settings: &c::Settings) -> c::Rows<'a> {
    match c::Rows::open(data, settings) {
        Ok(rows) => rows,
        Err(_) => out_of_memory::<u8>(0),
    }
}

/// The most bytes that are decoded: eight times as many and 64 more fit in a `usize`. A 64-bit machine has no more.
const MOST_BYTES: usize = (usize::MAX - 64) / 8;

/// Returns the error of a status. The last arm is for an allocation that failed.
fn error_of(status: u32) -> DecodeError {
    match status {
        c::UNEXPECTED_EOF => DecodeError::UnexpectedEof,
        c::INVALID_CODE => DecodeError::InvalidCode,
        // Valid settings are taken, and all data but what is too long.
        c::OVERFLOW | c::NOT_TAKEN => DecodeError::Overflow,
        _ => out_of_memory::<u32>(0),
    }
}

fn usize_of(number: u64) -> usize {
    usize::try_from(number).unwrap_or(usize::MAX)
}

/// Returns a vector of zeros. If the allocation fails, the program ends.
fn zeros<T: Copy + Default>(length: usize) -> Vec<T> {
    alloc::vec![T::default(); length]
}

/// Ends the program after an allocation that failed.
fn out_of_memory<T>(length: usize) -> ! {
    match Layout::array::<T>(length) {
        Ok(layout) => handle_alloc_error(layout),
        Err(_) => panic!("capacity overflow"),
    }
}

/// A sink for the rows of an image.
pub trait Decoder {
    /// Accepts the next row: the positions at which its colour changes, strictly ascending and below `columns`. A row starts
    /// white, so it is black from the first position up to the second, from the third up to the fourth, and so on; with an odd
    /// number of positions it ends black.
    fn push_row(&mut self, changes: &[u32]);
}

/// The settings of an image, for any number of calls of [`decode`].
pub struct DecoderContext {
    settings: DecodeSettings,
    damaged_rows: u64,
    missed_eols: u64,
    cut_rows: u64,
    fault_start: Option<usize>,
}

impl DecoderContext {
    /// Creates a context with these settings.
    pub fn new(settings: DecodeSettings) -> Self {
        Self {
            settings,
            damaged_rows: 0,
            missed_eols: 0,
            cut_rows: 0,
            fault_start: None,
        }
    }

    /// Takes the counts of an image, and the place of its fault if there is one.
    fn tell(&mut self, outcome: &c::Outcome, is_fault: bool) {
        self.damaged_rows = outcome.damaged_rows;
        self.missed_eols = outcome.missed_eols;
        self.cut_rows = outcome.cut_rows;
        self.fault_start = is_fault.then(|| usize_of(outcome.fault_start));
    }

    /// Takes the counts of an image whose rows were read up to this status, and returns what its decoding returns.
    fn tell_of(&mut self, row: &c::Row, status: u32) -> Result<usize> {
        let result = match status {
            c::NO_ROW => Ok(usize_of(row.bytes_read)),
            _ => Err(error_of(status)),
        };
        self.damaged_rows = row.damaged_rows;
        self.missed_eols = row.missed_eols;
        self.cut_rows = row.cut_rows;
        // After an error it is the place of the fault.
        self.fault_start = result.is_err().then(|| usize_of(row.line_start));
        result
    }

    /// Returns the number of rows of the last image whose line was damaged and repaired, as a lenient reading of Group 3 with EOLs
    /// does.
    pub fn damaged_rows(&self) -> u64 {
        self.damaged_rows
    }

    /// Returns the number of rows of the last image, not repaired, after which a lenient reading of Group 3 passed other bits up to
    /// the next EOL, or found none.
    pub fn missed_eols(&self) -> u64 {
        self.missed_eols
    }

    /// Returns the number of rows of the last image, not repaired, in which a lenient reading cut a run at the row's end. If this,
    /// [`damaged_rows`](Self::damaged_rows) and [`missed_eols`](Self::missed_eols) are 0 after a decoding without an error, a strict
    /// reading ends without one too; and only then.
    pub fn cut_rows(&self) -> u64 {
        self.cut_rows
    }

    /// Returns the offset of the fault in bits if the last image ended with an error: that at which the line after its rows begins,
    /// after its EOL; or that at which strict data lacks an EOL.
    pub fn fault_start(&self) -> Option<usize> {
        self.fault_start
    }
}

/// How the data is encoded, and how much of it is decoded.
#[derive(Copy, Clone, Debug)]
pub struct DecodeSettings {
    /// The width of the image in pixels.
    pub columns: u32,
    /// The largest number of rows; 0 for no limit.
    pub rows: u32,
    /// Whether EOFB or RTC may end the data. It needn't be there.
    pub end_of_block: bool,
    /// Whether an EOL precedes each line of Group 3. EOLs are recognized without it too.
    pub end_of_line: bool,
    /// Whether each row is padded up to a whole byte.
    pub rows_are_byte_aligned: bool,
    /// How the lines are encoded.
    pub encoding: EncodingMode,
    /// Whether data that breaks a rule is an error, rather than repaired or cut.
    pub strict: bool,
}

/// How the lines of an image are encoded.
#[derive(Copy, Clone, Debug, PartialEq, Eq)]
pub enum EncodingMode {
    /// Group 4 (T.6, MMR): each line by the one before it.
    Group4,
    /// Group 3, one-dimensional (T.4, MH): each line by itself.
    Group3_1D,
    /// Group 3, two-dimensional (T.4, MR): a tag before each line says which of both.
    Group3_2D,
}

/// Why decoding stopped early. The rows before were passed on.
#[derive(Debug, Clone, Copy, PartialEq, Eq)]
pub enum DecodeError {
    /// The data ends inside a code word, or where a line must begin.
    UnexpectedEof,
    /// The bits are no code word, or strict data breaks a rule.
    InvalidCode,
    /// A length or a position exceeds 32 bits, or a changing element lies left of a0. Where `usize` has 32 bits, also that the data has
    /// 2^32 - 64 bits or more.
    Overflow,
}

impl fmt::Display for DecodeError {
    fn fmt(&self, f: &mut fmt::Formatter<'_>) -> fmt::Result {
        f.write_str(match self {
            Self::UnexpectedEof => "unexpected end of input",
            Self::InvalidCode => "invalid CCITT code sequence",
            Self::Overflow => "arithmetic overflow in position calculation",
        })
    }
}

impl core::error::Error for DecodeError {}

/// The result of [`decode`].
pub type Result<T> = core::result::Result<T, DecodeError>;
