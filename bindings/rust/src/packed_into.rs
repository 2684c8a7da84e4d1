//! Packed rows in the caller's memory.

use crate::{DecodeError, DecoderContext, MOST_BYTES, c, error_of, usize_of};
use core::fmt;

/// How packed rows lie in memory, and which bit is black.
#[derive(Copy, Clone, Debug, Default, PartialEq, Eq)]
pub struct PackedLayout {
    /// The bytes from the start of a row to the start of the next one; 0 for those of a row, `columns.div_ceil(8)`.
    pub stride: u32,
    /// Whether 0 is black and 1 white, rather than 1 and 0. The bits after a row's last pixel are white.
    pub black_is_0: bool,
}

/// Why [`decode_packed_into`] stopped early.
#[derive(Copy, Clone, Debug, PartialEq, Eq)]
pub enum IntoError {
    /// The data is damaged, or isn't what the settings say. The rows before are in the bitmap.
    Data(DecodeError),
    /// There is no room for the next row. The rows before are in the bitmap.
    NoRoom,
    /// The stride is less than the bytes of a row. Nothing is written.
    ShortStride,
}

impl fmt::Display for IntoError {
    fn fmt(&self, f: &mut fmt::Formatter<'_>) -> fmt::Result {
        match self {
            Self::Data(error) => error.fmt(f),
            Self::NoRoom => f.write_str("no room for the next row"),
            Self::ShortStride => f.write_str("the stride is less than the bytes of a row"),
        }
    }
}

impl core::error::Error for IntoError {}

/// Decodes an image into a bitmap of the caller's, and returns the number of rows in it, and the number of bytes that were read or
/// why it stopped.
///
/// A row has `columns.div_ceil(8)` bytes, the leftmost pixel in a byte's highest bit. The bytes between the rows, and after the
/// last one, keep their values. The last row needs only its own bytes.
///
/// # Example
///
/// ```
/// # use hayro_ccitt::{decode_packed_into, DecodeSettings, DecoderContext, EncodingMode, PackedLayout};
/// # let mut context = DecoderContext::new(DecodeSettings {
/// #     columns: 8, rows: 2, end_of_block: false, end_of_line: false, rows_are_byte_aligned: false,
/// #     encoding: EncodingMode::Group4, strict: false,
/// # });
/// let mut bitmap = [7; 4];
/// let layout = PackedLayout { stride: 3, black_is_0: true };
/// let (rows, result) = decode_packed_into(&[0x31, 0xF8], &mut context, layout, &mut bitmap);
/// assert_eq!((rows, result), (2, Ok(2)));
/// assert_eq!(bitmap, [0b11100111, 7, 7, 0b11100111]);
/// ```
pub fn decode_packed_into(
    data: &[u8],
    ctx: &mut DecoderContext,
    layout: PackedLayout,
    bitmap: &mut [u8],
) -> (usize, Result<usize, IntoError>) {
    let settings = c::Settings::from(&ctx.settings).laid_out(layout);
    pack_into(data, ctx, &settings, bitmap)
}

/// Decodes as [`decode_packed_into`] does, with the lowest bit of each byte of the data first.
pub fn decode_packed_into_low_first(
    data: &[u8],
    ctx: &mut DecoderContext,
    layout: PackedLayout,
    bitmap: &mut [u8],
) -> (usize, Result<usize, IntoError>) {
    let settings = c::Settings::from(&ctx.settings)
        .low_first()
        .laid_out(layout);
    pack_into(data, ctx, &settings, bitmap)
}

fn pack_into(
    data: &[u8],
    ctx: &mut DecoderContext,
    settings: &c::Settings,
    bitmap: &mut [u8],
) -> (usize, Result<usize, IntoError>) {
    let (status, outcome) = c::decode_packed(data, settings, bitmap);
    let result = match status {
        // It is at most the length of the data.
        c::OK => Ok(outcome.bytes_read as usize),
        c::REFUSED => Err(IntoError::NoRoom),
        // All else that these settings say is valid.
        c::NOT_TAKEN if data.len() <= MOST_BYTES => Err(IntoError::ShortStride),
        _ => Err(IntoError::Data(error_of(status))),
    };
    ctx.tell(&outcome, result.is_err() && status != c::NOT_TAKEN);
    (usize_of(outcome.rows), result)
}
