//! The calls of `c/hayro_ccitt.h` and `c/fax_encode.h`. All unsafe code is here.

use crate::zeros;
use alloc::vec::Vec;
use core::ffi::c_void;

pub(crate) const OK: u32 = 0;
pub(crate) const UNEXPECTED_EOF: u32 = 1;
pub(crate) const INVALID_CODE: u32 = 2;
pub(crate) const OVERFLOW: u32 = 3;
pub(crate) const OUT_OF_MEMORY: u32 = 4;
pub(crate) const REFUSED: u32 = 5;
pub(crate) const NOT_TAKEN: u32 = 6;
pub(crate) const NO_ROW: u32 = 7;
pub(crate) const NEEDS_MORE: u32 = 8;
pub(crate) const VIOLATION: u32 = 9;

/// `hayro_ccitt_settings`.
#[repr(C)]
#[derive(Copy, Clone)]
pub(crate) struct Settings {
    pub(crate) columns: u32,
    pub(crate) rows: u32,
    pub(crate) encoding: u32,
    pub(crate) flags: u32,
    pub(crate) stride: u32,
}

/// `hayro_ccitt_outcome`.
#[repr(C)]
#[derive(Default)]
pub(crate) struct Outcome {
    pub(crate) rows: u64,
    pub(crate) changes: u64,
    pub(crate) bytes_read: u64,
    pub(crate) damaged_rows: u64,
    pub(crate) fault_start: u64,
    pub(crate) missed_eols: u64,
    pub(crate) cut_rows: u64,
}

/// `hayro_ccitt_row`.
#[repr(C)]
#[derive(Copy, Clone, Default)]
pub(crate) struct RowOutcome {
    pub(crate) rows: u64,
    pub(crate) changes: u64,
    pub(crate) line_start: u64,
    pub(crate) bytes_read: u64,
    pub(crate) damaged_rows: u64,
    pub(crate) damage: u64,
    pub(crate) missed_eols: u64,
    pub(crate) cut_rows: u64,
    pub(crate) is_cut: u64,
    pub(crate) missed_eol: u64,
}

/// `hayro_ccitt_violation`.
#[repr(C)]
#[derive(Default)]
pub(crate) struct ViolationOutcome {
    pub(crate) place: u64,
    pub(crate) rule: u64,
}

/// `hayro_ccitt_reader`: all zeros, or as a call left it.
#[repr(C)]
pub(crate) struct Reader {
    reading: *mut c_void,
    dangling: *mut c_void,
    is_open: u8,
}

/// `hayro_ccitt_row_feed`, whose fields are of the same types.
pub(crate) type Feed = Reader;

// SAFETY: the reading that the pointer owns is used through this value alone, and its memory may be freed by any thread.
unsafe impl Send for Reader {}
// SAFETY: through a shared reference nothing is read.
unsafe impl Sync for Reader {}

impl Default for Reader {
    /// Creates a reader that isn't open.
    fn default() -> Self {
        Self {
            reading: core::ptr::null_mut(),
            dangling: core::ptr::null_mut(),
            is_open: 0,
        }
    }
}

/// `fax_encode_settings`.
#[repr(C)]
pub(crate) struct EncodeSettings {
    pub(crate) columns: u32,
    pub(crate) encoding: u32,
    pub(crate) flags: u32,
    pub(crate) k: u32,
    pub(crate) stride: u32,
}

/// `fax_encode_outcome`.
#[repr(C)]
#[derive(Default)]
pub(crate) struct EncodeOutcome {
    pub(crate) rows: u64,
    pub(crate) bytes: u64,
}

/// Declares calls as functions of Rust. A parameter is a reference, or a slice: for C a pointer and a length.
macro_rules! calls {
    ($($name:ident($($parameter:tt)*);)*) => {
        $(call! { $name, [], [], [], $($parameter)* })*
    };
}

/// Declares one call, parameter by parameter.
macro_rules! call {
    ($name:ident, [$($of_c:tt)*], [$($own:tt)*], [$($passed:tt)*], $items:ident $length:ident: &[$of:ty], $($rest:tt)*) => {
        call! {
            $name, [$($of_c)* $items: *const $of, $length: usize,], [$($own)* $items: &[$of],],
            [$($passed)* $items.as_ptr(), $items.len(),], $($rest)*
        }
    };
    ($name:ident, [$($of_c:tt)*], [$($own:tt)*], [$($passed:tt)*], $items:ident $length:ident: &mut [$of:ty], $($rest:tt)*) => {
        call! {
            $name, [$($of_c)* $items: *mut $of, $length: usize,], [$($own)* $items: &mut [$of],],
            [$($passed)* $items.as_mut_ptr(), $items.len(),], $($rest)*
        }
    };
    ($name:ident, [$($of_c:tt)*], [$($own:tt)*], [$($passed:tt)*], $item:ident: $of:ty, $($rest:tt)*) => {
        call! { $name, [$($of_c)* $item: $of,], [$($own)* $item: $of,], [$($passed)* $item,], $($rest)* }
    };
    ($name:ident, [$($of_c:tt)*], [$($own:tt)*], [$($passed:tt)*],) => {
        #[inline]
        pub(crate) fn $name($($own)*) -> u32 {
            // SAFETY: it is so declared in c/hayro_ccitt.h or c/fax_encode.h, and the structures above are its structures.
            unsafe extern "C" {
                fn $name($($of_c)*) -> u32;
            }
            check_processor();
            // SAFETY: pointers of references and slices are not null and valid for their lengths, nothing else refers to what
            // is borrowed mutably, and a reader is all zeros or as the last call left it.
            unsafe { $name($($passed)*) }
        }
    };
}

calls! {
    hayro_ccitt_decode_packed(
        data data_length: &[u8], settings: &Settings, bitmap bitmap_length: &mut [u8], outcome: &mut Outcome,
    );
    hayro_ccitt_open(data data_length: &[u8], settings: &Settings, reader: &mut Reader,);
    hayro_ccitt_next_changes(
        data data_length: &[u8], reader: &mut Reader, changes changes_length: &mut [u32], row: &mut RowOutcome,
    );
    hayro_ccitt_next_packed(
        data data_length: &[u8], reader: &mut Reader, packed packed_length: &mut [u8], row: &mut RowOutcome,
    );
    hayro_ccitt_close(reader: &mut Reader,);
    hayro_ccitt_feed_open(settings: &Settings, feed: &mut Feed,);
    hayro_ccitt_feed(feed: &mut Feed, bytes length: &[u8],);
    hayro_ccitt_feed_finish(feed: &mut Feed,);
    hayro_ccitt_feed_next_changes(feed: &mut Feed, changes changes_length: &mut [u32], row: &mut RowOutcome,);
    hayro_ccitt_feed_next_packed(feed: &mut Feed, packed packed_length: &mut [u8], row: &mut RowOutcome,);
    hayro_ccitt_feed_rows_changes(
        feed: &mut Feed, lists lists_length: &mut [u32], count: &mut usize, row: &mut RowOutcome,
    );
    hayro_ccitt_feed_rows_packed(
        feed: &mut Feed, bitmap bitmap_length: &mut [u8], count: &mut usize, row: &mut RowOutcome,
    );
    hayro_ccitt_feed_unused(feed: &mut Feed, bytes length: &mut [u8], count: &mut usize,);
    hayro_ccitt_feed_close(feed: &mut Feed,);
    hayro_ccitt_check(
        data data_length: &[u8], settings: &Settings, grade: u32, k: u32, violation: &mut ViolationOutcome,
    );
    fax_encode_bitmap(
        bitmap bitmap_length: &[u8], settings: &EncodeSettings, data data_length: &mut [u8], outcome: &mut EncodeOutcome,
    );
}

/// On ARM64 the machine code needs no more than each processor has.
#[cfg(target_arch = "aarch64")]
fn check_processor() {}

/// SSE3, SSSE3, CMPXCHG16B, SSE4.1, SSE4.2 and POPCNT, of the level x86-64-v2, by their bits in ECX of CPUID's leaf 1.
#[cfg(not(target_arch = "aarch64"))]
const LEVEL_2: u32 = 1 | 1 << 9 | 1 << 13 | 1 << 19 | 1 << 20 | 1 << 23;

/// Panics on a processor that lacks instructions of the proved machine code: they would end the program without a word.
#[cfg(not(target_arch = "aarch64"))]
#[inline]
fn check_processor() {
    use core::sync::atomic::{AtomicBool, Ordering};
    static IS_CHECKED: AtomicBool = AtomicBool::new(false);
    if IS_CHECKED.load(Ordering::Relaxed) {
        return;
    }
    // SAFETY: each processor of x86-64 has CPUID and its leaf 1. (Later compilers need no `unsafe` here.)
    #[allow(unused_unsafe)]
    let found = unsafe { core::arch::x86_64::__cpuid(1) }.ecx;
    assert!(
        found & LEVEL_2 == LEVEL_2,
        "hayro-ccitt-proved needs a processor of the level x86-64-v2; the package hayro-ccitt runs on any"
    );
    IS_CHECKED.store(true, Ordering::Relaxed);
}

/// Lists the rows in the room after the numbers of `lists`, of each the number of its changes and then the changes; and returns the
/// status and the outcome.
pub(crate) fn decode_changes(
    data: &[u8],
    settings: &Settings,
    lists: &mut Vec<u32>,
) -> (u32, Outcome) {
    // SAFETY: it is so declared in c/hayro_ccitt.h.
    unsafe extern "C" {
        fn hayro_ccitt_decode_changes(
            data: *const u8,
            data_length: usize,
            settings: &Settings,
            lists: *mut u32,
            lists_length: usize,
            outcome: &mut Outcome,
        ) -> u32;
    }
    check_processor();
    let mut outcome = Outcome::default();
    let length = lists.len();
    let room = lists.spare_capacity_mut();
    let most = room.len();
    // SAFETY: as above; the room is written before it is read, and the call writes the numbers of the rows that it tells.
    let status = unsafe {
        let status = hayro_ccitt_decode_changes(
            data.as_ptr(),
            data.len(),
            settings,
            room.as_mut_ptr().cast(),
            most,
            &mut outcome,
        );
        let written = usize::try_from(outcome.rows + outcome.changes).unwrap_or(most);
        lists.set_len(length + written.min(most));
        status
    };
    (status, outcome)
}

/// Encodes a bitmap, or returns the status. If there is no memory for the bytes, the program ends.
pub(crate) fn encode_bitmap(bitmap: &[u8], settings: &EncodeSettings) -> Result<Vec<u8>, u32> {
    let mut outcome = EncodeOutcome::default();
    // A first call, without room, returns the number of bytes.
    let status = fax_encode_bitmap(bitmap, settings, &mut [], &mut outcome);
    if status != OK && status != REFUSED {
        return Err(status);
    }
    let mut data = zeros(outcome.bytes as usize);
    match fax_encode_bitmap(bitmap, settings, &mut data, &mut outcome) {
        OK => Ok(data),
        status => Err(status),
    }
}
