//! The cases and the strips as a module of WebAssembly, without a system.

mod cases;
mod strips;

#[unsafe(no_mangle)]
pub extern "C" fn sum_of(seed: u64, count: u64) -> u64 {
    cases::sum_of(seed, count)
}

/// Returns what came of a strip, or 0 if there is no such strip.
#[unsafe(no_mangle)]
pub extern "C" fn sum_of_strip(index: usize) -> u64 {
    strips::sum_of(index).unwrap_or(0)
}
