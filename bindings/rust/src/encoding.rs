//! The encoder.

use crate::{EncodingMode, PackedLayout, c, out_of_memory};
use alloc::vec::Vec;
use core::fmt;

/// How a bitmap is encoded.
#[derive(Copy, Clone, Debug, PartialEq, Eq)]
pub struct EncodeSettings {
    /// The width of the image in pixels.
    pub columns: u32,
    /// How the lines are encoded.
    pub encoding: EncodingMode,
    /// K of two-dimensional Group 3, at least 1: at most K - 1 two-dimensional lines follow a one-dimensional one (T.4,
    /// 4.2.1). In the other encodings it has no effect.
    pub k: u32,
    /// Whether an EOL precedes each line of Group 3. Group 4 has none.
    pub end_of_line: bool,
    /// Whether fill precedes EOLs so that they end at whole bytes, as TIFF's T4Options bit 2 says.
    pub eols_end_at_bytes: bool,
    /// Whether each line without an EOL is padded up to a whole byte.
    pub rows_are_byte_aligned: bool,
    /// Whether EOFB follows the last line of Group 4, or RTC that of Group 3 with EOLs.
    pub end_of_block: bool,
    /// Whether each byte's lowest bit comes first, as in TIFF files of FillOrder 2.
    pub low_first: bool,
    /// Whether lines have the fewest bits that encode them, rather than those of T.4's words and T.6's procedure, which other
    /// encoders follow. This decoder reads either as the same rows.
    pub shortest: bool,
}

/// Why a bitmap wasn't encoded.
#[derive(Copy, Clone, Debug, PartialEq, Eq)]
pub enum EncodeError {
    /// The width is 0.
    NoColumns,
    /// The stride is less than the bytes of a row.
    ShortStride,
    /// The bitmap ends inside a row: if its rows follow one another, its length isn't a multiple of the length of a row.
    NotWholeRows,
    /// The bitmap is empty, which only Group 4 with EOFB has an encoding for.
    NoRows,
    /// The settings name no encoding: EOLs or fill in Group 4, fill or RTC without EOLs, aligned rows with EOLs, or
    /// two-dimensional Group 3 with a `k` of 0.
    NoEncoding,
}

impl fmt::Display for EncodeError {
    fn fmt(&self, f: &mut fmt::Formatter<'_>) -> fmt::Result {
        f.write_str(match self {
            Self::NoColumns => "no columns",
            Self::NoRows => "no rows",
            Self::NoEncoding => "no encoding",
            Self::ShortStride => "the stride is less than the bytes of a row",
            Self::NotWholeRows => "the bitmap isn't whole rows",
        })
    }
}

impl core::error::Error for EncodeError {}

/// Encodes a bitmap, whose rows have `columns.div_ceil(8)` bytes each: one bit a pixel, 1 for black, the leftmost pixel in a byte's
/// highest bit. Bits after the last pixel of a row are ignored.
///
/// Decoded with the settings that match, the data gives exactly these rows: with the same encoding, `end_of_line` and
/// `rows_are_byte_aligned`, and either `end_of_block` or the number of rows as the limit.
///
/// # Errors
///
/// As the variants of [`EncodeError`] say. The first that applies is returned.
///
/// # Example
///
/// ```
/// use hayro_ccitt::{encode_bitmap, EncodeSettings, EncodingMode};
///
/// let settings = EncodeSettings {
///     columns: 8,
///     encoding: EncodingMode::Group4,
///     k: 0,
///     end_of_line: false,
///     eols_end_at_bytes: false,
///     rows_are_byte_aligned: false,
///     end_of_block: true,
///     low_first: false,
///     shortest: false,
/// };
/// let data = encode_bitmap(&[0b00011000], settings)?;
/// assert_eq!(data, [0x31, 0xC0, 0x04, 0x00, 0x40]);
/// # Ok::<(), hayro_ccitt::EncodeError>(())
/// ```
pub fn encode_bitmap(
    bitmap: &[u8],
    settings: EncodeSettings,
) -> core::result::Result<Vec<u8>, EncodeError> {
    encode_bitmap_from(bitmap, PackedLayout::default(), settings)
}

/// Encodes as [`encode_bitmap`] does the rows of a bitmap of this layout. The bytes between the rows are ignored, and the last row
/// needs only its own bytes.
///
/// # Errors
///
/// As the variants of [`EncodeError`] say. The first that applies is returned.
///
/// # Example
///
/// ```
/// # use hayro_ccitt::{encode_bitmap, encode_bitmap_from, EncodeSettings, EncodingMode, PackedLayout};
/// # let settings = EncodeSettings {
/// #     columns: 8, encoding: EncodingMode::Group4, k: 0, end_of_line: false, eols_end_at_bytes: false,
/// #     rows_are_byte_aligned: false, end_of_block: true, low_first: false, shortest: false,
/// # };
/// let layout = PackedLayout { stride: 3, black_is_0: true };
/// let data = encode_bitmap_from(&[0b11100111, 7, 7, 0b11100111], layout, settings)?;
/// assert_eq!(Ok(data), encode_bitmap(&[0b00011000, 0b00011000], settings));
/// # Ok::<(), hayro_ccitt::EncodeError>(())
/// ```
pub fn encode_bitmap_from(
    bitmap: &[u8],
    layout: PackedLayout,
    settings: EncodeSettings,
) -> core::result::Result<Vec<u8>, EncodeError> {
    let width = settings.columns.div_ceil(8) as usize;
    if width == 0 {
        return Err(EncodeError::NoColumns);
    }
    let stride = match layout.stride {
        0 => width,
        stride => stride as usize,
    };
    if stride < width {
        return Err(EncodeError::ShortStride);
    }
    if (1..width).contains(&(bitmap.len() % stride)) {
        return Err(EncodeError::NotWholeRows);
    }
    let settings = c::EncodeSettings::from(&settings).laid_out(layout);
    match c::encode_bitmap(bitmap, &settings) {
        Ok(data) => Ok(data),
        Err(c::NOT_TAKEN) if bitmap.is_empty() => Err(EncodeError::NoRows),
        Err(c::NOT_TAKEN) => Err(EncodeError::NoEncoding),
        Err(_) => out_of_memory::<u8>(0),
    }
}
