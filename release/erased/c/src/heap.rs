//! The allocator of `hayro_ccitt_heap.h`: three functions that the program defines.

use core::alloc::{GlobalAlloc, Layout};
use core::ptr;

/// `rattle_tried`.
#[repr(C)]
struct Tried {
    ok: u8,
    block: *mut u8,
}

impl Tried {
    fn block_or_null(self) -> *mut u8 {
        if self.ok != 0 { self.block } else { ptr::null_mut() }
    }
}

// SAFETY: these are the declarations of hayro_ccitt_heap.h.
unsafe extern "C" {
    fn rattle_alloc(size: usize, align: usize) -> Tried;
    fn rattle_realloc(block: *mut u8, kept: usize, size: usize, align: usize) -> Tried;
    fn rattle_dealloc(block: *mut u8);
}

struct Heap;

/// The most that these functions align to.
const MOST: usize = 16;

// SAFETY: the functions allocate as the header says, and what isn't aligned to more than that is asked for alone.
unsafe impl GlobalAlloc for Heap {
    unsafe fn alloc(&self, layout: Layout) -> *mut u8 {
        if layout.align() > MOST {
            return ptr::null_mut();
        }
        // SAFETY: any size may be asked for.
        unsafe { rattle_alloc(layout.size(), layout.align()) }.block_or_null()
    }

    unsafe fn dealloc(&self, block: *mut u8, _: Layout) {
        // SAFETY: the block is one of these functions.
        unsafe { rattle_dealloc(block) }
    }

    unsafe fn realloc(&self, block: *mut u8, layout: Layout, size: usize) -> *mut u8 {
        let kept = layout.size().min(size);
        // SAFETY: the block is one of these functions, and has as many bytes.
        unsafe { rattle_realloc(block, kept, size, layout.align()) }.block_or_null()
    }
}

#[global_allocator]
static HEAP: Heap = Heap;
