//! What the module of WebAssembly exports: a host opens a file, asks for its pages one after another, and closes it.
//!
//! # Safety
//!
//! The host passes addresses of blocks of `allocate` that are long enough, a file that `open_file` returned and that isn't closed, and
//! no number of a page that the file hasn't.

use crate::proved::fax_decode::NoPicture;
use crate::proved::fax_decode::damage::RowRanges;
use crate::proved::fax_pictures::Bitmap;
use crate::proved::png_write::{Density, Pixels};
use crate::{FaxFile, OpenError, PageInfo, png_of};

#[path = "../../c/src/room.rs"]
mod room;

/// A file that a host has opened, and the picture that it asked for last.
pub struct OpenFile {
    pages: FaxFile<'static>,
    /// The block that the file's bytes are in.
    block: (*mut u8, usize),
    shown: Option<Bitmap>,
}

/// The size of a picture, and the pixels of a metre, or 0.
#[repr(C)]
pub struct Size {
    columns: u32,
    rows: u32,
    across: u32,
    down: u32,
}

/// What opening a file fills in.
#[repr(C)]
pub struct OpenOutcome {
    /// 0, or what is wrong with the file, or with what follows its last page: the number of an `OpenError`.
    error: u32,
    pages: u32,
}

/// A list of bytes.
#[repr(C)]
#[derive(Default)]
pub struct Bytes {
    at: usize,
    length: usize,
}

/// Rows, of which the first ranges are listed: of each the first row and the last one.
#[repr(C)]
#[derive(Default)]
pub struct Rows {
    count: u32,
    ranges: u32,
    listed: [u32; 12],
}

/// What decoding a page fills in.
#[repr(C)]
#[derive(Default)]
pub struct PageOutcome {
    /// 0, or why there is no picture: the number of a `NoPicture`, or 255 if an allocation fails.
    error: u32,
    columns: u32,
    rows: u32,
    /// The packed pixels: 1 is black.
    bytes: Bytes,
    /// Rows that are missing, that were repaired, in which a run was cut, and after which an EOL is missing.
    damage: [Rows; 4],
}

/// Opens the file that a block of `allocate` has, which is the file's from then on. Returns null, and gives the block back, if it is none.
#[unsafe(no_mangle)]
pub unsafe extern "C" fn open_file(
    block: *mut u8,
    length: usize,
    outcome: &mut OpenOutcome,
) -> *mut OpenFile {
    // SAFETY: the block has this length, and stays until the file is closed.
    let bytes: &'static [u8] = unsafe { std::slice::from_raw_parts(block, length) };
    match FaxFile::open(bytes) {
        Ok(pages) => {
            *outcome = OpenOutcome {
                error: pages.end().map_or(0, number_of_error),
                pages: pages.count() as u32,
            };
            let file = OpenFile {
                pages,
                block: (block, length),
                shown: None,
            };
            Box::into_raw(Box::new(file))
        }
        Err(error) => {
            *outcome = OpenOutcome {
                error: number_of_error(error),
                pages: 0,
            };
            // SAFETY: nothing refers to the block any more.
            unsafe { room::release(block, length) };
            std::ptr::null_mut()
        }
    }
}

/// Closes a file.
#[unsafe(no_mangle)]
pub unsafe extern "C" fn close_file(file: *mut OpenFile) {
    // SAFETY: the file is one of `open_file`, and isn't used any more.
    let OpenFile {
        pages,
        block: (block, length),
        ..
    } = *unsafe { Box::from_raw(file) };
    drop(pages);
    // SAFETY: nothing refers to the block any more.
    unsafe { room::release(block, length) };
}

/// Says what is known of a page before it is decoded.
#[unsafe(no_mangle)]
pub extern "C" fn describe_page(file: &OpenFile, page: usize, info: &mut PageInfo) {
    *info = file.pages.info(page).unwrap_or_default();
}

/// Decodes a page, whose picture is kept until the next call.
#[unsafe(no_mangle)]
pub extern "C" fn show_page(file: &mut OpenFile, page: usize, outcome: &mut PageOutcome) {
    *outcome = PageOutcome::default();
    forget(file);
    let Some(shown) = file.pages.shown(page) else {
        return;
    };
    if let Some(damage) = &shown.damage {
        outcome.damage = [
            &damage.missing,
            &damage.repaired,
            &damage.cut,
            &damage.missed,
        ]
        .map(rows_of);
    }
    match shown.picture {
        Ok(picture) => {
            outcome.columns = picture.columns();
            outcome.rows = picture.rows();
            outcome.bytes = bytes_of(picture.bytes());
            file.shown = Some(picture);
        }
        Err(why) => outcome.error = why.map_or(255, number_of_reason),
    }
}

/// Makes a PNG file of packed pixels, of which 1 is black, with the pixels of a metre, or 0 if they aren't known. Returns null if an
/// allocation fails, or there are no rows of this size; else what the host gives back by `release_png`.
#[unsafe(no_mangle)]
pub unsafe extern "C" fn make_png(
    size: &Size,
    bits: *const u8,
    length: usize,
    made: &mut Bytes,
) -> *mut Vec<u8> {
    let &Size {
        columns,
        rows,
        across,
        down,
    } = size;
    // SAFETY: the host lends as many bytes.
    let bytes = unsafe { std::slice::from_raw_parts(bits, length) };
    let density = (across > 0 && down > 0).then_some(Density { across, down });
    match png_of(
        &Pixels {
            columns,
            rows,
            bytes,
        },
        density,
    ) {
        Some(file) => {
            *made = bytes_of(&file);
            Box::into_raw(Box::new(file))
        }
        None => std::ptr::null_mut(),
    }
}

/// Takes back what `make_png` returned.
#[unsafe(no_mangle)]
pub unsafe extern "C" fn release_png(file: *mut Vec<u8>) {
    // SAFETY: it is one of `make_png`, and isn't used any more.
    drop(unsafe { Box::from_raw(file) });
}

/// Gives back what was asked for last.
#[unsafe(no_mangle)]
pub extern "C" fn forget(file: &mut OpenFile) {
    file.shown = None;
}

fn bytes_of(bytes: &[u8]) -> Bytes {
    Bytes {
        at: bytes.as_ptr() as usize,
        length: bytes.len(),
    }
}

fn rows_of(rows: &RowRanges) -> Rows {
    let mut found = Rows {
        count: rows.count as u32,
        ranges: rows.ranges.len() as u32,
        listed: [0; 12],
    };
    for (index, range) in rows.ranges.iter().enumerate() {
        found.listed[2 * index] = range.first as u32;
        found.listed[2 * index + 1] = range.last as u32;
    }
    found
}

fn number_of_error(error: OpenError) -> u32 {
    match error {
        OpenError::NotKnown => 1,
        OpenError::Outside => 2,
        OpenError::Loop => 3,
        OpenError::Spent => 4,
        OpenError::OutOfMemory => 5,
        OpenError::Encrypted => 6,
    }
}

fn number_of_reason(why: NoPicture) -> u32 {
    match why {
        NoPicture::TooLarge => 1,
        NoPicture::NotAllowed => 2,
        NoPicture::PartsOverlap => 3,
        NoPicture::FalseWidth => 4,
        NoPicture::NoRow => 5,
    }
}
