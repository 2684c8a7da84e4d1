//! The calls of `hayro_ccitt.h` and `fax_encode.h`, over the safe package. All unsafe code is here.
//!
//! # Safety
//!
//! A caller passes pointers as the headers say: each is valid for its length, or of a length of 0, no memory that is written overlaps
//! other memory of the call, and a reader or writer is all zeros, or as the last call left it.

mod calls;
#[cfg(feature = "heap")]
mod heap;
#[cfg(target_family = "wasm")]
mod room;

use core::slice;

/// Returns the items that a caller lends; of a length of 0 the pointer may be null.
unsafe fn lent<'a, T>(items: *const T, length: usize) -> &'a [T] {
    if length == 0 {
        return &[];
    }
    // SAFETY: the caller passes a pointer that is valid for reads of the length.
    unsafe { slice::from_raw_parts(items, length) }
}

/// Returns the room that a caller lends; of a length of 0 the pointer may be null.
unsafe fn room<'a, T>(items: *mut T, length: usize) -> &'a mut [T] {
    if length == 0 {
        return &mut [];
    }
    // SAFETY: the caller passes a pointer that is valid for reads and writes of the length, and nothing else refers to it.
    unsafe { slice::from_raw_parts_mut(items, length) }
}
