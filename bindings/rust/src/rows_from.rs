//! Rows from a reader of the standard library.

use crate::told::told_of_rows;
use crate::{DecodeError, DecodeSettings, Fed, FeedError, RowFeed};
use alloc::vec::Vec;
use core::fmt;
use std::io::{self, BufRead, Chain, Cursor, ErrorKind, Read};

/// The most bytes that are fed at once, of those that a reader shows.
const MOST_FED: usize = 1 << 16;

/// Why [`RowsFrom`] read no row.
#[derive(Debug)]
pub enum ReadError {
    /// The reader failed. Nothing is lost, and the call can be made again.
    Io(io::Error),
    /// The data is damaged, or isn't what the settings say. The rows before were returned.
    Data(DecodeError),
    /// An allocation failed. Nothing is lost, and the call can be made again.
    OutOfMemory,
}

impl fmt::Display for ReadError {
    fn fmt(&self, f: &mut fmt::Formatter<'_>) -> fmt::Result {
        match self {
            Self::Io(error) => error.fmt(f),
            Self::Data(error) => error.fmt(f),
            Self::OutOfMemory => FeedError::OutOfMemory.fmt(f),
        }
    }
}

impl core::error::Error for ReadError {}

impl From<FeedError> for ReadError {
    /// `Finished` is an unexpected end: more data is needed, and none can follow.
    fn from(error: FeedError) -> Self {
        match error {
            FeedError::Data(error) => Self::Data(error),
            FeedError::OutOfMemory => Self::OutOfMemory,
            FeedError::Finished => Self::Data(DecodeError::UnexpectedEof),
        }
    }
}

impl From<ReadError> for io::Error {
    /// The reader's own error; else one of the kind `UnexpectedEof`, `InvalidData` or `OutOfMemory`.
    fn from(error: ReadError) -> Self {
        match error {
            ReadError::Io(error) => error,
            ReadError::Data(DecodeError::UnexpectedEof) => {
                Self::new(ErrorKind::UnexpectedEof, DecodeError::UnexpectedEof)
            }
            ReadError::Data(error) => Self::new(ErrorKind::InvalidData, error),
            ReadError::OutOfMemory => ErrorKind::OutOfMemory.into(),
        }
    }
}

/// Reads the rows of an image from a [`BufRead`] one at a time, each as soon as no data that follows can change its line. It
/// needs the feature `std`.
///
/// The rows, and what is reported of them, are those of a [`RowReader`](crate::RowReader) of all that the reader gives. A row is
/// borrowed until the next call. The data of a [`Read`] comes by a [`BufReader`](io::BufReader).
///
/// # What is consumed
///
/// At the end, also after an error of the data, that is three parts: the first [`bytes_read`](Self::bytes_read) bytes, which are
/// consumed and are the image's; then those of [`unused`](Self::unused), which are consumed too; and then what the reader gives next.
/// So if `unused` is empty, what is consumed is the image to the byte, and what follows it can be read from the same reader. Else
/// [`into_rest`](Self::into_rest) reads all that follows. Before the end it is so too, except where the reader failed within a gap, of
/// which only the number of bits is kept: then `unused` is empty.
///
/// `unused` isn't empty where bytes after those read had to be looked at, the reader showed no more of them, and a `BufRead` shows
/// more only if these are consumed. Bytes after an image are looked at as far as they could belong to it:
///
/// - none after EOFB, if `end_of_block` is set (T.6, 2.4.1.1);
/// - else, after the last row or RTC, zeros up to a one that isn't part of an EOL: all EOLs there are the image's, also that before the
///   first line of another one (T.4, 4.1.2 and 4.1.4);
/// - where an EOL is missing or a line is damaged in lenient Group 3 with EOLs, all bytes up to the next EOL, or to the end of the
///   data.
///
/// # Example
///
/// Two images, each a row and EOFB, one after the other:
///
/// ```
/// # use hayro_ccitt::{DecodeSettings, EncodingMode, RowsFrom};
/// # let settings = DecodeSettings {
/// #     columns: 8, rows: 0, end_of_block: true, end_of_line: false, rows_are_byte_aligned: false,
/// #     encoding: EncodingMode::Group4, strict: false,
/// # };
/// let mut reader = &[0x31, 0xC0, 0x04, 0x00, 0x40, 0x31, 0xC0, 0x04, 0x00, 0x40][..];
/// for left in [5, 0] {
///     let mut rows = RowsFrom::new(&mut reader, settings);
///     while let Some(changes) = rows.next_row()? {
///         assert_eq!(changes, [3, 5]);
///     }
///     assert_eq!(rows.rows_read(), 1);
///     assert_eq!(reader.len(), left);
/// }
/// # Ok::<(), hayro_ccitt::ReadError>(())
/// ```
pub struct RowsFrom<R> {
    reader: R,
    rows: RowFeed,
    /// How many of the bytes that the reader shows were fed. All of them are the last ones that were fed.
    shown: usize,
}

impl<R: BufRead> RowsFrom<R> {
    /// Creates a reader before the first row. If an allocation fails here, the program ends.
    pub fn new(reader: R, settings: DecodeSettings) -> Self {
        Self::with_feed(reader, RowFeed::new(settings))
    }

    /// Creates a reader of data whose bytes have their lowest bit first, as in TIFF files of FillOrder 2.
    pub fn new_low_first(reader: R, settings: DecodeSettings) -> Self {
        Self::with_feed(reader, RowFeed::new_low_first(settings))
    }

    /// Creates a reader of the data that was fed, and of what the reader gives after it. If the data is finished, nothing is read.
    pub fn with_feed(reader: R, rows: RowFeed) -> Self {
        Self {
            reader,
            rows,
            shown: 0,
        }
    }

    /// Reads the next row, and returns its changes of colour, as [`Decoder::push_row`](crate::Decoder::push_row) gets them;
    /// `None` at the end of the image.
    ///
    /// # Errors
    ///
    /// Those of [`decode`](crate::decode), after which each further call returns the same error; those of the reader, except
    /// `Interrupted`, after which it is read again; and `OutOfMemory`.
    #[inline]
    pub fn next_row(&mut self) -> Result<Option<&[u32]>, ReadError> {
        let is_row = self.come_to_row(RowFeed::read_row)?;
        Ok(is_row.then(|| self.rows.changes()))
    }

    /// Reads the next row, and returns it packed, as [`RowReader::next_packed`](crate::RowReader::next_packed) does; `None` at the
    /// end of the image.
    ///
    /// # Errors
    ///
    /// Those of [`next_row`](Self::next_row).
    pub fn next_packed(&mut self) -> Result<Option<&[u8]>, ReadError> {
        let is_row = self.come_to_row(RowFeed::pack_row)?;
        Ok(is_row.then(|| self.rows.packed()))
    }

    /// Reads the next row by this call, with as much data as it needs. Returns whether there is one.
    #[inline]
    fn come_to_row(
        &mut self,
        read: impl Fn(&mut RowFeed) -> Result<Fed<()>, FeedError>,
    ) -> Result<bool, ReadError> {
        loop {
            let fed = read(&mut self.rows);
            self.consume_read();
            match fed? {
                Fed::Row(()) => return Ok(true),
                Fed::End => return Ok(false),
                Fed::NeedsMore => self.feed_more()?,
            }
        }
    }

    /// Consumes those of the bytes shown that were read.
    fn consume_read(&mut self) {
        let left = self.rows.unused_count().min(self.shown);
        if left < self.shown {
            self.reader.consume(self.shown - left);
            self.shown = left;
        }
    }

    /// Feeds bytes that the reader shows and that weren't fed. If there are none, those shown are consumed first. At the end of what the
    /// reader gives, the data is finished.
    fn feed_more(&mut self) -> Result<(), ReadError> {
        loop {
            let bytes = match self.reader.fill_buf() {
                Ok(bytes) => bytes,
                Err(error) if error.kind() == ErrorKind::Interrupted => continue,
                Err(error) => return Err(ReadError::Io(error)),
            };
            let more = bytes.get(self.shown..).unwrap_or(&[]);
            let more = &more[..more.len().min(MOST_FED)];
            if !more.is_empty() {
                self.rows.feed(more)?;
                self.shown += more.len();
                return Ok(());
            }
            if self.shown == 0 {
                self.rows.finish();
                return Ok(());
            }
            self.reader.consume(self.shown);
            self.shown = 0;
        }
    }

    /// Returns a copy of the bytes that were consumed beyond [`bytes_read`](Self::bytes_read). They come before those that the reader
    /// gives next. If an allocation fails here, the program ends.
    pub fn unused(&mut self) -> Vec<u8> {
        let mut bytes = self.rows.unused();
        bytes.truncate(bytes.len().saturating_sub(self.shown));
        bytes
    }

    /// Returns the reader. What it gives next comes after the bytes of [`unused`](Self::unused).
    pub fn into_inner(self) -> R {
        self.reader
    }

    /// Returns a reader of all that follows the bytes read: those of [`unused`](Self::unused), and then what the reader gives. At the
    /// end of the image it is what follows the image.
    pub fn into_rest(mut self) -> Chain<Cursor<Vec<u8>>, R> {
        Cursor::new(self.unused()).chain(self.reader)
    }

    told_of_rows!(|self| self.rows.told());
}
