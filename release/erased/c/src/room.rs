//! Memory for a host that has none but that of the module: what WebAssembly runs in.

use std::alloc::{Layout, alloc, dealloc};
use std::ptr;

/// Returns the layout of memory of this length, or `None` if it's longer than any can be.
fn layout_of(length: usize) -> Option<Layout> {
    // No block is empty.
    Layout::from_size_align(length.max(1), 8).ok()
}

/// Returns memory of as many bytes, which begins at a multiple of 8, or null if it can't be allocated. The host gives it back by
/// `release`.
#[unsafe(no_mangle)]
pub extern "C" fn allocate(length: usize) -> *mut u8 {
    match layout_of(length) {
        // SAFETY: the layout isn't empty.
        Some(layout) => unsafe { alloc(layout) },
        None => ptr::null_mut(),
    }
}

/// Takes back what `allocate` returned for this length. The host doesn't use it any more.
#[unsafe(no_mangle)]
pub unsafe extern "C" fn release(block: *mut u8, length: usize) {
    if let Some(layout) = layout_of(length) {
        // SAFETY: the host passes a block of `allocate`, whose layout is that of its length.
        unsafe { dealloc(block, layout) }
    }
}
