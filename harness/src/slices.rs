//! The library's functions on Rust's slices, with the answers as they come (barnshiver.h says what they are). All else is
//! built on these.

use crate::raw;

/// What is answered where a lent slice is too short, which then stays as it was.
pub const NO_ROOM: u8 = 255;
/// Bytes of a tag: offset 8, microstep 4.
pub const TAG_BYTES: usize = 12;
/// Bytes of a local tag on the global scale: the tag, and whether it was held back 1 (0 or 1).
pub const MAPPED_BYTES: usize = 13;
/// Bytes of a clock: G, L, allowed 1, S.
pub const CLOCK_BYTES: usize = 37;
/// Bytes of a place.
pub const PLACE_BYTES: usize = 8;
/// Bytes of a table's counts: nine of two.
pub const COUNTS_BYTES: usize = 18;
/// Bytes of the largest image.
pub const LARGEST_IMAGE: usize = 3287;
/// Bytes of a rescue's report before its runs, and of a run.
pub const REPORT_HEAD: usize = 24;
pub const RUN_BYTES: usize = 16;

/// Room for the report on a day of so many bytes.
pub const fn report_room(day: usize) -> usize {
    REPORT_HEAD + RUN_BYTES + 3 * day
}

/// Global to local, or local to global, on a clock's bytes: 0, or the refusal and `tag` as it was. To global it takes `MAPPED_BYTES`.
pub fn map(to_local: bool, clock: &[u8], offset: u64, microstep: u32, tag: &mut [u8]) -> u8 {
    let function = if to_local {
        raw::barnshiver_global_to_local
    } else {
        raw::barnshiver_local_to_global
    };
    // SAFETY: the pointers and lengths are those of slices that live through the call and don't overlap.
    unsafe {
        function(
            clock.as_ptr(),
            clock.len(),
            offset,
            microstep,
            tag.as_mut_ptr(),
            tag.len(),
        )
    }
}

/// 0, or the refusal; and the place over the front of `place`.
pub fn check_table(image: &[u8], place: &mut [u8]) -> u8 {
    // SAFETY: as above.
    unsafe {
        raw::barnshiver_check_table(image.as_ptr(), image.len(), place.as_mut_ptr(), place.len())
    }
}

/// The image of counts and rows over the front of `buffer`: how many bytes; or the refusal, its number times 2^32 and its
/// place, and `buffer` as it was.
pub fn write_table(counts: &[u8], rows: &[u8], buffer: &mut [u8]) -> u64 {
    // SAFETY: as above.
    unsafe {
        raw::barnshiver_write_table(
            counts.as_ptr(),
            counts.len(),
            rows.as_ptr(),
            rows.len(),
            buffer.as_mut_ptr(),
            buffer.len(),
        )
    }
}

/// The lines of a day over the front of `lines`; how many bytes.
pub fn run_day(day: &[u8], lines: &mut [u8]) -> usize {
    // SAFETY: as above.
    unsafe { raw::barnshiver_run_day(day.as_ptr(), day.len(), lines.as_mut_ptr(), lines.len()) }
}

/// What is still whole of a damaged day over the front of `output`, and what was kept and dropped over the front of `report`:
/// 0; or the image's refusal, its number times 2^32 and its place, or `NO_ROOM` times 2^32, and both as they were.
pub fn rescue(day: &[u8], output: &mut [u8], report: &mut [u8]) -> u64 {
    // SAFETY: as above.
    unsafe {
        raw::barnshiver_rescue(
            day.as_ptr(),
            day.len(),
            output.as_mut_ptr(),
            output.len(),
            report.as_mut_ptr(),
            report.len(),
        )
    }
}

/// The state after a day's records over the front of `state`: 0; or the image's refusal and `state` as it was.
pub fn state_after(day: &[u8], state: &mut [u8]) -> u8 {
    // SAFETY: as above.
    unsafe { raw::barnshiver_state_after(day.as_ptr(), day.len(), state.as_mut_ptr(), state.len()) }
}
