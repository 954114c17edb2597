//! The proved readers: showing a line, what a line is refused for (5 and 6), what
//! a file is (1 to 6), and the values of point and relation lines.
//!
//! The calls are those of `crates/probe`; the archive carries what they answer
//! over as numbers, and here the numbers get their names again. Sets and questions
//! on them are what `sps` is for.

/// Columns 1 to 80 of a line.
pub type Line = [u8; 80];

/// A line name: the bytes of its 16 columns as two numbers, high byte first.
pub type Name = [u64; 2];

/// The values of a point line. Decimals and the water depth are in tenths, the
/// code is its two bytes as a number, high byte first.
#[derive(Clone, Copy, Debug, PartialEq, Eq)]
pub struct Point {
    pub name: Name,
    pub number: u64,
    pub index: u64,
    pub code: u64,
    pub state: State,
    pub static_correction: Option<i64>,
    pub depth: i64,
    pub datum: i64,
    pub uphole: Option<i64>,
    pub water_depth: Option<i64>,
    pub easting: i64,
    pub northing: i64,
    pub elevation: i64,
    pub day: u64,
    pub time: u64,
}

/// What a point is.
#[derive(Clone, Copy, Debug, PartialEq, Eq)]
pub enum State {
    Live,
    Killed,
    Marker,
}

impl State {
    fn of(number: u64) -> State {
        match number {
            0 => State::Live,
            1 => State::Killed,
            2 => State::Marker,
            other => panic!("{other} is no state"),
        }
    }
}

/// The values of a relation line. The tape is its six bytes as a number, high
/// byte first.
#[derive(Clone, Copy, Debug, PartialEq, Eq)]
pub struct Relation {
    pub tape: u64,
    pub record: u64,
    pub record_increment: u64,
    pub instrument: u64,
    pub source_name: Name,
    pub source: u64,
    pub source_index: u64,
    pub from_channel: u64,
    pub to_channel: u64,
    pub channel_increment: u64,
    pub receiver_name: Name,
    pub from_receiver: u64,
    pub to_receiver: u64,
    pub receiver_index: u64,
}

/// The archive's functions, in the types of `crates/probe`. A reference to an
/// array is a pointer to its first place, and a slice is a pointer and a length,
/// so references of Rust meet what the calls ask: memory of that length that
/// stays and, where it is written, overlaps nothing else. The calls keep no
/// pointer, and are proved to read and write nothing else.
mod archive {
    use super::Line;

    unsafe extern "C" {
        pub fn probe_show(
            r: *const u8,
            r_len: usize,
            s: *const u8,
            s_len: usize,
            letter: u8,
            n: usize,
            out: *mut u8,
            out_len: usize,
        ) -> u64;
        pub safe fn probe_line(line: &Line, file: u8) -> u64;
        pub fn probe_form(bytes: *const u8, len: usize, file: u8) -> u64;
        pub safe fn probe_point(line: &Line, numbers: &mut [u64; 16]);
        pub safe fn probe_relation(line: &Line, numbers: &mut [u64; 16]);
    }
}

/// Shows line `n` of R or S: its columns come to stand in the first places of
/// `out` where they have room, later places stay. Returns how many columns
/// there are.
pub fn show(r: &[u8], s: &[u8], letter: u8, n: usize, out: &mut [u8]) -> u64 {
    // SAFETY: each pointer and length are those of one slice, and `out` is lent
    // alone.
    unsafe {
        archive::probe_show(
            r.as_ptr(),
            r.len(),
            s.as_ptr(),
            s.len(),
            letter,
            n,
            out.as_mut_ptr(),
            out.len(),
        )
    }
}

/// What a line or a file is refused for.
#[derive(Clone, Copy, Debug, PartialEq, Eq)]
pub struct Refusal {
    pub number: u64,
    pub file: u64,
    pub line: u64,
    pub column: u64,
}

impl Refusal {
    /// The refusal of an answer, `number * 2^40 + file * 2^32 + line * 256 + column`.
    fn of(answer: u64) -> Option<Refusal> {
        let part = |from: u32, bits: u32| answer >> from & ((1 << bits) - 1);
        (answer != 0).then(|| Refusal {
            number: part(40, 24),
            file: part(32, 8),
            line: part(8, 24),
            column: part(0, 8),
        })
    }
}

/// What a line of a file (R 1, S 2, X 3) is refused for, as if it stood first: 5,
/// and a relation line that obeys it 6.
pub fn refusal(line: &Line, file: u8) -> Option<Refusal> {
    Refusal::of(archive::probe_line(line, file))
}

/// What a file (R 1, S 2, X 3) is refused for, 1 to 6.
pub fn form(bytes: &[u8], file: u8) -> Option<Refusal> {
    // SAFETY: the pointer and the length are those of one slice.
    Refusal::of(unsafe { archive::probe_form(bytes.as_ptr(), bytes.len(), file) })
}

/// The values of a point line that is not refused; of a marker those of its free
/// columns say nothing.
pub fn point(line: &Line) -> Point {
    let mut numbers = [0; 16];
    archive::probe_point(line, &mut numbers);
    let [hi, lo, number, index, code, state, static_value, rest @ ..] = numbers;
    let [depth, datum, uphole, water, easting, northing, elevation, day, time] = rest;
    Point {
        name: [hi, lo],
        number,
        index,
        code,
        state: State::of(state),
        static_correction: held(static_value),
        depth: depth.cast_signed(),
        datum: datum.cast_signed(),
        uphole: held(uphole),
        water_depth: held(water),
        easting: easting.cast_signed(),
        northing: northing.cast_signed(),
        elevation: elevation.cast_signed(),
        day,
        time,
    }
}

/// A field that may be blank, which is -2^63.
fn held(number: u64) -> Option<i64> {
    let value = number.cast_signed();
    (value != i64::MIN).then_some(value)
}

/// The values of a relation line that is not refused.
pub fn relation(line: &Line) -> Relation {
    let mut numbers = [0; 16];
    archive::probe_relation(line, &mut numbers);
    let [tape, record, record_increment, instrument, rest @ ..] = numbers;
    let [source_hi, source_lo, source, source_index, rest @ ..] = rest;
    let [from_channel, to_channel, channel_increment, rest @ ..] = rest;
    let [receiver_hi, receiver_lo, from_receiver, to_receiver, receiver_index] = rest;
    Relation {
        tape,
        record,
        record_increment,
        instrument,
        source_name: [source_hi, source_lo],
        source,
        source_index,
        from_channel,
        to_channel,
        channel_increment,
        receiver_name: [receiver_hi, receiver_lo],
        from_receiver,
        to_receiver,
        receiver_index,
    }
}
