//! Rows one at a time.

use crate::told::told_of_rows;
use crate::{DecodeSettings, Result, c, error_of, open_rows, usize_of, zeros};
use alloc::vec::Vec;

/// Reads the rows of an image one at a time, in memory for a row, however long the image is.
///
/// A row is borrowed until the next one is read.
///
/// # Example
///
/// ```
/// # use hayro_ccitt::{DecodeSettings, EncodingMode, RowReader};
/// # let settings = DecodeSettings {
/// #     columns: 8, rows: 1, end_of_block: false, end_of_line: false, rows_are_byte_aligned: false,
/// #     encoding: EncodingMode::Group4, strict: false,
/// # };
/// let mut rows = RowReader::new(&[0x31, 0xC0], settings);
/// while let Some(changes) = rows.next_row()? {
///     assert_eq!(changes, [3, 5]);
/// }
/// assert_eq!(rows.bytes_read(), 2);
/// # Ok::<(), hayro_ccitt::DecodeError>(())
/// ```
pub struct RowReader<'a> {
    rows: c::Rows<'a>,
    data: &'a [u8],
    settings: c::Settings,
    columns: u32,
    changes: Vec<u32>,
    packed: Vec<u8>,
}

impl<'a> RowReader<'a> {
    /// Creates a reader before the first row.
    pub fn new(data: &'a [u8], settings: DecodeSettings) -> Self {
        Self::with(data, &settings, c::Settings::from(&settings))
    }

    /// Creates a reader of data whose bytes have their lowest bit first, as in TIFF files of FillOrder 2.
    pub fn new_low_first(data: &'a [u8], settings: DecodeSettings) -> Self {
        Self::with(data, &settings, c::Settings::from(&settings).low_first())
    }

    /// Returns a reader before the first row, whose packed rows have 0 for black and 1 for white, also after the last pixel.
    pub fn black_is_0(self) -> Self {
        let settings = self.settings.black_is_0();
        Self {
            rows: open_rows(self.data, &settings),
            settings,
            ..self
        }
    }

    pub(crate) fn with(data: &'a [u8], settings: &DecodeSettings, told: c::Settings) -> Self {
        Self {
            rows: open_rows(data, &told),
            data,
            settings: told,
            columns: settings.columns,
            changes: Vec::new(),
            packed: Vec::new(),
        }
    }

    /// Reads the next row, and returns its changes of colour, as [`Decoder::push_row`](crate::Decoder::push_row) gets them;
    /// `None` at the end of the image.
    ///
    /// # Errors
    ///
    /// Those of [`decode`](crate::decode). After an error each further call returns the same error.
    #[inline]
    pub fn next_row(&mut self) -> Result<Option<&[u32]>> {
        let mut status = self.rows.next_changes(&mut self.changes);
        while status == c::REFUSED {
            self.grow();
            status = self.rows.next_changes(&mut self.changes);
        }
        match status {
            c::OK => Ok(Some(&self.changes[..self.rows.row.changes as usize])),
            c::NO_ROW => Ok(None),
            _ => Err(error_of(status)),
        }
    }

    /// Makes room for the row that was refused, at least twice as much as before.
    #[cold]
    fn grow(&mut self) {
        let wanted = usize_of(self.rows.row.changes).max(self.changes.len().saturating_mul(2));
        self.changes = zeros(wanted.min(self.columns as usize).max(64));
    }

    /// Reads the next row, and returns it packed: `columns.div_ceil(8)` bytes, one bit a pixel, 1 for black, or 0 for a reader of
    /// [`black_is_0`](Self::black_is_0), the leftmost pixel in a byte's highest bit; `None` at the end of the image.
    ///
    /// # Errors
    ///
    /// Those of [`decode`](crate::decode). After an error each further call returns the same error.
    pub fn next_packed(&mut self) -> Result<Option<&[u8]>> {
        if self.packed.is_empty() {
            self.packed = zeros(self.columns.div_ceil(8) as usize);
        }
        match self.rows.next_packed(&mut self.packed) {
            c::OK => Ok(Some(&self.packed)),
            c::NO_ROW => Ok(None),
            status => Err(error_of(status)),
        }
    }

    told_of_rows!(|self| self.rows.row);
}
