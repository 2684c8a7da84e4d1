//! Rows from data that comes in pieces.

use crate::told::told_of_rows;
use crate::{DecodeError, DecodeSettings, c, error_of, out_of_memory, usize_of, zeros};
use alloc::vec::Vec;
use core::fmt;

/// What a call of [`RowFeed::next_row`] or [`RowFeed::next_packed`] came to.
#[derive(Copy, Clone, Debug, PartialEq, Eq)]
pub enum Fed<T> {
    /// A row was read.
    Row(T),
    /// Data that follows could change what is next: feed more, or finish the data.
    NeedsMore,
    /// The image has ended.
    End,
}

impl Fed<()> {
    /// Returns the same with the row, if one was read.
    fn with<T>(self, row: impl FnOnce() -> T) -> Fed<T> {
        match self {
            Self::Row(()) => Fed::Row(row()),
            Self::NeedsMore => Fed::NeedsMore,
            Self::End => Fed::End,
        }
    }
}

/// Why a call of a [`RowFeed`] failed.
#[derive(Copy, Clone, Debug, PartialEq, Eq)]
pub enum FeedError {
    /// The data is damaged, or isn't what the settings say. The rows before were returned.
    Data(DecodeError),
    /// An allocation failed. Nothing is lost, and the call can be made again.
    OutOfMemory,
    /// The data is finished, so nothing can be fed.
    Finished,
}

impl fmt::Display for FeedError {
    fn fmt(&self, f: &mut fmt::Formatter<'_>) -> fmt::Result {
        match self {
            Self::Data(error) => error.fmt(f),
            Self::OutOfMemory => f.write_str("an allocation failed"),
            Self::Finished => f.write_str("the data is finished"),
        }
    }
}

impl core::error::Error for FeedError {}

impl From<DecodeError> for FeedError {
    fn from(error: DecodeError) -> Self {
        Self::Data(error)
    }
}

/// Reads the rows of an image from data that comes in pieces, each as soon as no data that follows can change its line.
///
/// The rows, and what is reported of them, are those of a [`RowReader`](crate::RowReader) of all the data, however it is cut. Of the
/// data the bytes that aren't read yet are kept, but few of a gap between rows, unless its EOL is missing. Few long pieces take less
/// time than many short ones. A row is borrowed until the next call.
///
/// # Example
///
/// ```
/// # use hayro_ccitt::{DecodeSettings, EncodingMode, Fed, RowFeed};
/// # let settings = DecodeSettings {
/// #     columns: 8, rows: 0, end_of_block: true, end_of_line: false, rows_are_byte_aligned: false,
/// #     encoding: EncodingMode::Group4, strict: false,
/// # };
/// // A row, EOFB, and a byte of something else.
/// let pieces = [&[0x31, 0xC0][..], &[0x04, 0x00, 0x40, 0x07]];
/// let mut rows = RowFeed::new(settings);
/// for piece in pieces {
///     rows.feed(piece)?;
///     while let Fed::Row(changes) = rows.next_row()? {
///         assert_eq!(changes, [3, 5]);
///     }
/// }
/// rows.finish();
/// while let Fed::Row(_) = rows.next_row()? {
///     unreachable!("EOFB had ended the image");
/// }
/// assert_eq!((rows.rows_read(), rows.bytes_read()), (1, 5));
/// assert_eq!(rows.unused(), [0x07]);
/// # Ok::<(), hayro_ccitt::FeedError>(())
/// ```
pub struct RowFeed {
    feed: c::Feed,
    settings: c::Settings,
    columns: u32,
    changes: Vec<u32>,
    packed: Vec<u8>,
}

impl RowFeed {
    /// Creates a reader before the first row, to which nothing was fed. If an allocation fails here, the program ends.
    pub fn new(settings: DecodeSettings) -> Self {
        Self::with(settings.columns, c::Settings::from(&settings))
    }

    /// Creates a reader of data whose bytes have their lowest bit first, as in TIFF files of FillOrder 2.
    pub fn new_low_first(settings: DecodeSettings) -> Self {
        Self::with(settings.columns, c::Settings::from(&settings).low_first())
    }

    /// Returns a reader to which nothing was fed, whose packed rows have 0 for black and 1 for white, also after the last pixel.
    pub fn black_is_0(self) -> Self {
        Self::with(self.columns, self.settings.black_is_0())
    }

    /// Opens a reader. The settings are valid; so if it can't, an allocation failed.
    fn with(columns: u32, settings: c::Settings) -> Self {
        let Ok(feed) = c::Feed::open(&settings) else {
            out_of_memory::<u8>(0)
        };
        Self {
            feed,
            settings,
            columns,
            changes: Vec::new(),
            packed: Vec::new(),
        }
    }

    /// Feeds the bytes that come next in the data. They are copied.
    ///
    /// # Errors
    ///
    /// `OutOfMemory`; `Finished` after [`finish`](Self::finish); and `Overflow` of the data if all bytes fed would have more than
    /// 2^64 - 72 bits. No byte is fed then, and the reading is the same.
    pub fn feed(&mut self, bytes: &[u8]) -> Result<(), FeedError> {
        match self.feed.feed(bytes) {
            c::OK => Ok(()),
            c::NOT_TAKEN => Err(FeedError::Finished),
            status => Err(feed_error_of(status)),
        }
    }

    /// Finishes the data: no bytes follow those that were fed.
    pub fn finish(&mut self) {
        self.feed.finish();
    }

    /// Reads the next row, and returns its changes of colour, as [`Decoder::push_row`](crate::Decoder::push_row) gets them, if no
    /// data that follows can change it.
    ///
    /// After [`Fed::NeedsMore`] feed more, or finish the data. At the end of the image each further call returns [`Fed::End`].
    ///
    /// # Errors
    ///
    /// Those of [`decode`](crate::decode), after which each further call returns the same error; and `OutOfMemory`.
    #[inline]
    pub fn next_row(&mut self) -> Result<Fed<&[u32]>, FeedError> {
        let fed = self.read_row()?;
        Ok(fed.with(|| self.changes()))
    }

    /// Reads the next row, and returns it packed, as [`RowReader::next_packed`](crate::RowReader::next_packed) does, if no data
    /// that follows can change it.
    ///
    /// # Errors
    ///
    /// Those of [`next_row`](Self::next_row).
    pub fn next_packed(&mut self) -> Result<Fed<&[u8]>, FeedError> {
        let fed = self.pack_row()?;
        Ok(fed.with(|| self.packed()))
    }

    /// Reads the next rows, as many as a bitmap has room for, and packs them into it from its front, each as
    /// [`next_packed`](Self::next_packed) does. Returns how many: none only if there is no room for one. The bytes after them
    /// keep their values. A row costs less than by a call of its own.
    ///
    /// If there is no room for a row that is known, it was read too: it is the last row, and the next call returns it.
    ///
    /// # Errors
    ///
    /// Those of [`next_row`](Self::next_row). Rows that were read before an error are returned first.
    pub fn next_rows_packed(&mut self, bitmap: &mut [u8]) -> Result<Fed<usize>, FeedError> {
        let (status, count) = self.feed.rows_packed(bitmap);
        if count > 0 || status == c::REFUSED {
            return Ok(Fed::Row(count));
        }
        Ok(fed_of(status)?.with(|| count))
    }

    /// Reads the next row into the room for changes.
    #[inline]
    pub(crate) fn read_row(&mut self) -> Result<Fed<()>, FeedError> {
        let mut status = self.feed.next_changes(&mut self.changes);
        while status == c::REFUSED {
            self.grow()?;
            status = self.feed.next_changes(&mut self.changes);
        }
        fed_of(status)
    }

    /// Returns the changes of the row that was read last, by [`read_row`](Self::read_row).
    #[inline]
    pub(crate) fn changes(&self) -> &[u32] {
        &self.changes[..self.feed.row.changes as usize]
    }

    /// Makes room for the row that was refused, at least twice as much as before.
    #[cold]
    fn grow(&mut self) -> Result<(), FeedError> {
        let wanted = usize_of(self.feed.row.changes).max(self.changes.len().saturating_mul(2));
        self.changes = try_zeros(wanted.min(self.columns as usize).max(64))?;
        Ok(())
    }

    /// Reads the next row into the room for a packed row, which is made for the first one.
    pub(crate) fn pack_row(&mut self) -> Result<Fed<()>, FeedError> {
        let mut status = self.feed.next_packed(&mut self.packed);
        if status == c::REFUSED {
            self.packed = try_zeros(self.columns.div_ceil(8) as usize)?;
            status = self.feed.next_packed(&mut self.packed);
        }
        fed_of(status)
    }

    /// Returns the row that was read last, by [`pack_row`](Self::pack_row).
    pub(crate) fn packed(&self) -> &[u8] {
        &self.packed
    }

    /// Returns a copy of the bytes that were fed and aren't consumed: those from [`bytes_read`](Self::bytes_read) on. At the end
    /// of the image they are what follows it. There are none where a gap waits for more data, of which only the number of bits is
    /// kept. If an allocation fails here, the program ends.
    pub fn unused(&mut self) -> Vec<u8> {
        let (status, count) = self.feed.unused(&mut []);
        if status != c::REFUSED {
            return Vec::new(); // There are none, or they aren't kept.
        }
        let mut bytes = zeros(count);
        self.feed.unused(&mut bytes);
        bytes
    }

    /// Returns the number of bytes that were fed and aren't consumed.
    #[cfg(feature = "std")]
    pub(crate) fn unused_count(&mut self) -> usize {
        self.feed.unused(&mut []).1
    }

    /// Returns what the last call that read reports of the rows.
    pub(crate) fn told(&self) -> &c::Row {
        &self.feed.row
    }

    told_of_rows!(|self| self.told());
}

/// Returns what a call came to.
fn fed_of(status: u32) -> Result<Fed<()>, FeedError> {
    match status {
        c::OK => Ok(Fed::Row(())),
        c::NEEDS_MORE => Ok(Fed::NeedsMore),
        c::NO_ROW => Ok(Fed::End),
        _ => Err(feed_error_of(status)),
    }
}

/// Returns the error of a status.
fn feed_error_of(status: u32) -> FeedError {
    match status {
        c::OUT_OF_MEMORY => FeedError::OutOfMemory,
        _ => FeedError::Data(error_of(status)),
    }
}

/// Returns a vector of zeros, if there is memory for it.
fn try_zeros<T: Copy + Default>(length: usize) -> Result<Vec<T>, FeedError> {
    let mut room = Vec::new();
    if room.try_reserve_exact(length).is_err() {
        return Err(FeedError::OutOfMemory);
    }
    room.resize(length, T::default());
    Ok(room)
}
