//! The calls of `libsps.a` on slices of Rust: the one place that is `unsafe`.
//!
//! `include/sps.h` says what the calls ask: each pointer and length name memory that
//! is there and stays as it is for the call, and memory that is written overlaps
//! nothing else. References of Rust are that. The calls are proved to read and write
//! no other memory, and keep no pointer.
#![allow(unsafe_code)]

// Tests have this file by its path too.
#[path = "archive/c.rs"]
mod c;

/// R, S and X, and the number of their medium.
#[derive(Clone, Copy)]
pub struct Files<'a> {
    pub medium: u64,
    pub r: &'a [u8],
    pub s: &'a [u8],
    pub x: &'a [u8],
}

pub fn form(medium: u64, kind: u64, file: &[u8]) -> u64 {
    // SAFETY: the pointer and the length are those of one slice.
    unsafe { c::sps_form(medium, kind, file.as_ptr(), file.len()) }
}

/// As C hosts may ask, without counts; the wrapper takes `counts`.
#[allow(dead_code)]
pub fn cross(Files { medium, r, s, x }: Files) -> u64 {
    // SAFETY: each pointer and length are those of one slice.
    unsafe { c::sps_cross(medium, r.as_ptr(), r.len(), s.as_ptr(), s.len(), x.as_ptr(), x.len()) }
}

pub fn counts(Files { medium, r, s, x }: Files, counts: &mut [u8]) -> u64 {
    // SAFETY: each pointer and length are those of one slice, and the one that is
    // written is lent alone.
    unsafe {
        c::sps_counts(
            medium,
            r.as_ptr(),
            r.len(),
            s.as_ptr(),
            s.len(),
            x.as_ptr(),
            x.len(),
            counts.as_mut_ptr(),
            counts.len(),
        )
    }
}

pub fn traces(Files { medium, r, s, x }: Files, first: u64, rows: &mut [u8]) -> u64 {
    // SAFETY: each pointer and length are those of one slice, and the one that is
    // written is lent alone.
    unsafe {
        c::sps_traces(
            medium,
            r.as_ptr(),
            r.len(),
            s.as_ptr(),
            s.len(),
            x.as_ptr(),
            x.len(),
            first,
            rows.as_mut_ptr(),
            rows.len(),
        )
    }
}

pub fn trace(Files { medium, r, s, x }: Files, tape: &[u8], record: u64, channel: u64) -> u64 {
    // SAFETY: each pointer and length are those of one slice.
    unsafe {
        c::sps_trace(
            medium,
            r.as_ptr(),
            r.len(),
            s.as_ptr(),
            s.len(),
            x.as_ptr(),
            x.len(),
            tape.as_ptr(),
            tape.len(),
            record,
            channel,
        )
    }
}

pub fn channel(
    Files { medium, r, s, x }: Files,
    tape: &[u8],
    record: u64,
    r_line: u64,
    component: u64,
) -> u64 {
    // SAFETY: each pointer and length are those of one slice.
    unsafe {
        c::sps_channel(
            medium,
            r.as_ptr(),
            r.len(),
            s.as_ptr(),
            s.len(),
            x.as_ptr(),
            x.len(),
            tape.as_ptr(),
            tape.len(),
            record,
            r_line,
            component,
        )
    }
}

pub fn spread(
    Files { medium, r, s, x }: Files,
    tape: &[u8],
    record: u64,
    lines: &mut [u8],
    components: &mut [u8],
) -> u64 {
    // SAFETY: each pointer and length are those of one slice, and both slices that
    // are written are lent alone.
    unsafe {
        c::sps_spread(
            medium,
            r.as_ptr(),
            r.len(),
            s.as_ptr(),
            s.len(),
            x.as_ptr(),
            x.len(),
            tape.as_ptr(),
            tape.len(),
            record,
            lines.as_mut_ptr(),
            lines.len(),
            components.as_mut_ptr(),
            components.len(),
        )
    }
}

pub fn table_line(Files { medium, r, s, x }: Files, kind: u64, code: &[u8]) -> u64 {
    // SAFETY: each pointer and length are those of one slice.
    unsafe {
        c::sps_table_line(
            medium,
            r.as_ptr(),
            r.len(),
            s.as_ptr(),
            s.len(),
            x.as_ptr(),
            x.len(),
            kind,
            code.as_ptr(),
            code.len(),
        )
    }
}

pub fn read_point(medium: u64, letter: u64, file: &[u8], line: u64, values: &mut [u8]) -> u64 {
    let (places, length) = (values.as_mut_ptr(), values.len());
    // SAFETY: each pointer and length are those of one slice, and the one that is
    // written is lent alone.
    unsafe { c::sps_read_point(medium, letter, file.as_ptr(), file.len(), line, places, length) }
}

pub fn read_relation(medium: u64, x: &[u8], line: u64, values: &mut [u8]) -> u64 {
    let (places, length) = (values.as_mut_ptr(), values.len());
    // SAFETY: as of `read_point`.
    unsafe { c::sps_read_relation(medium, x.as_ptr(), x.len(), line, places, length) }
}

pub fn write_point(letter: u64, values: &[u8], line: &mut [u8]) -> u64 {
    let (columns, length) = (line.as_mut_ptr(), line.len());
    // SAFETY: as of `read_point`.
    unsafe { c::sps_write_point(letter, values.as_ptr(), values.len(), columns, length) }
}

pub fn write_relation(values: &[u8], line: &mut [u8]) -> u64 {
    let (columns, length) = (line.as_mut_ptr(), line.len());
    // SAFETY: as of `read_point`.
    unsafe { c::sps_write_relation(values.as_ptr(), values.len(), columns, length) }
}

/// The bytes that 16-bit numbers stand in.
pub fn bytes_of(numbers: &mut [u16]) -> &mut [u8] {
    let (bytes, length) = (numbers.as_mut_ptr().cast(), size_of_val(numbers));
    // SAFETY: the memory of the numbers, for as long as they are lent; bytes need no
    // alignment, and any two bytes are a number.
    unsafe { std::slice::from_raw_parts_mut(bytes, length) }
}
