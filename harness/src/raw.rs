//! The library's functions as barnshiver.h declares them: a slice is a pointer and a length.

extern "C" {
    pub fn barnshiver_global_to_local(
        clock: *const u8,
        clock_length: usize,
        offset: u64,
        microstep: u32,
        tag: *mut u8,
        tag_length: usize,
    ) -> u8;

    pub fn barnshiver_local_to_global(
        clock: *const u8,
        clock_length: usize,
        offset: u64,
        microstep: u32,
        tag: *mut u8,
        tag_length: usize,
    ) -> u8;

    pub fn barnshiver_check_table(
        image: *const u8,
        image_length: usize,
        place: *mut u8,
        place_length: usize,
    ) -> u8;

    pub fn barnshiver_write_table(
        counts: *const u8,
        counts_length: usize,
        rows: *const u8,
        rows_length: usize,
        buffer: *mut u8,
        buffer_length: usize,
    ) -> u64;

    pub fn barnshiver_run_day(
        day: *const u8,
        day_length: usize,
        lines: *mut u8,
        lines_length: usize,
    ) -> usize;

    pub fn barnshiver_rescue(
        day: *const u8,
        day_length: usize,
        output: *mut u8,
        output_length: usize,
        report: *mut u8,
        report_length: usize,
    ) -> u64;

    pub fn barnshiver_state_after(
        day: *const u8,
        day_length: usize,
        state: *mut u8,
        state_length: usize,
    ) -> u8;
}
