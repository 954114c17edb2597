//! The calls as `include/sps.h` declares them.

unsafe extern "C" {
    pub fn sps_form(medium: u64, kind: u64, file: *const u8, file_len: usize) -> u64;
    pub fn sps_cross(
        medium: u64,
        r: *const u8,
        r_len: usize,
        s: *const u8,
        s_len: usize,
        x: *const u8,
        x_len: usize,
    ) -> u64;
    pub fn sps_counts(
        medium: u64,
        r: *const u8,
        r_len: usize,
        s: *const u8,
        s_len: usize,
        x: *const u8,
        x_len: usize,
        counts: *mut u8,
        counts_len: usize,
    ) -> u64;
    pub fn sps_traces(
        medium: u64,
        r: *const u8,
        r_len: usize,
        s: *const u8,
        s_len: usize,
        x: *const u8,
        x_len: usize,
        first: u64,
        rows: *mut u8,
        rows_len: usize,
    ) -> u64;
    pub fn sps_trace(
        medium: u64,
        r: *const u8,
        r_len: usize,
        s: *const u8,
        s_len: usize,
        x: *const u8,
        x_len: usize,
        tape: *const u8,
        tape_len: usize,
        record: u64,
        channel: u64,
    ) -> u64;
    pub fn sps_channel(
        medium: u64,
        r: *const u8,
        r_len: usize,
        s: *const u8,
        s_len: usize,
        x: *const u8,
        x_len: usize,
        tape: *const u8,
        tape_len: usize,
        record: u64,
        r_line: u64,
        component: u64,
    ) -> u64;
    pub fn sps_spread(
        medium: u64,
        r: *const u8,
        r_len: usize,
        s: *const u8,
        s_len: usize,
        x: *const u8,
        x_len: usize,
        tape: *const u8,
        tape_len: usize,
        record: u64,
        lines: *mut u8,
        lines_len: usize,
        components: *mut u8,
        components_len: usize,
    ) -> u64;
    pub fn sps_table_line(
        medium: u64,
        r: *const u8,
        r_len: usize,
        s: *const u8,
        s_len: usize,
        x: *const u8,
        x_len: usize,
        kind: u64,
        code: *const u8,
        code_len: usize,
    ) -> u64;
    pub fn sps_read_point(
        medium: u64,
        letter: u64,
        file: *const u8,
        file_len: usize,
        line: u64,
        values: *mut u8,
        values_len: usize,
    ) -> u64;
    pub fn sps_read_relation(
        medium: u64,
        x: *const u8,
        x_len: usize,
        line: u64,
        values: *mut u8,
        values_len: usize,
    ) -> u64;
    pub fn sps_write_point(
        letter: u64,
        values: *const u8,
        values_len: usize,
        line: *mut u8,
        line_len: usize,
    ) -> u64;
    pub fn sps_write_relation(
        values: *const u8,
        values_len: usize,
        line: *mut u8,
        line_len: usize,
    ) -> u64;
}
