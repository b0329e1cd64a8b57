//! What both parts of the benchmark take times with.

use std::ptr;

pub fn median(times: &mut [f64]) -> f64 {
    times.sort_by(f64::total_cmp);
    times[times.len() / 2]
}

/// The same functions, but the compiler cannot know which: so it cannot work them out ahead.
pub fn opaque<T: Copy>(functions: &T) -> T {
    // A reference may always be read through.
    unsafe { ptr::read_volatile(functions) }
}
