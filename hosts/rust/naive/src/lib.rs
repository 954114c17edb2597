//! A naive reader and writer of SPS sets: the second opinion on the form of one file, the
//! cross-check of three, the two lookups, the spread table, all traces as rows, the lines of
//! code tables, the showing of a line and the writing of one.
//!
//! It is written from the paper alone and shares neither code nor definitions
//! with the proved checker. It answers every input, of any length and bytes.
//!
//! The way of the data: `lines` cuts a file (1 to 3) and `tape` gives the records of
//! a tape in ASCII (3 and 29), `fields` reads one field and `codes` lists the codes of
//! points, `point`, `relation` and `header` read one line (5 and 6), `form` puts a whole
//! file of a kind together (1 to 6), `set` compares the three files (7 to 19) and counts,
//! `tables` has the codes that the header names (24 and 25), `traces` answers questions of
//! an accepted set (20 and 21), `rows` goes through all its traces. `show` and `host` stand
//! apart.
//!
//! The way back: `one_line` reads a line by itself (20, 3 to 6), `values` has what it holds and
//! what a line is written from, `spell` gives each of them its one spelling, `write` puts the
//! line together (22 and 23).

#![forbid(unsafe_code)]

mod codes;
mod fields;
mod form;
mod header;
mod host;
mod lines;
mod one_line;
mod point;
mod relation;
mod rows;
mod set;
mod show;
mod spell;
mod tables;
mod tape;
mod traces;
mod values;
mod write;

pub use host::{medium, HostNumber};
pub use lines::Line;
pub use point::{Marker, Place, Point, PointLine};
pub use relation::Relation;
pub use rows::Row;
pub use show::show;
pub use values::{PointValues, RelationValues};

use form::Form;

/// One of the three files, by its letter.
#[derive(Clone, Copy, Debug, PartialEq, Eq)]
pub enum File {
    R,
    S,
    X,
}

impl File {
    fn letter(self) -> u8 {
        match self {
            File::R => b'R',
            File::S => b'S',
            File::X => b'X',
        }
    }

    /// The file of a letter in a question; any other letter is 20.
    fn asked(letter: u64) -> Result<File, Refusal> {
        let is_it = |file: &File| u64::from(file.letter()) == letter;
        [File::R, File::S, File::X].into_iter().find(is_it).ok_or(placeless(20))
    }
}

/// What the three files of a set are written on.
#[derive(Clone, Copy, Debug, PartialEq, Eq)]
pub enum Medium {
    /// Lines of 80 columns, CR and LF.
    Disc,
    /// Records of 80 bytes in code page 037, and one that ends them.
    Tape,
}

/// R, S and X.
pub type Files<'a> = [&'a [u8]; 3];

/// A refusal number with its place; 20 to 23 have none.
#[derive(Clone, Copy, Debug, PartialEq, Eq)]
pub struct Refusal {
    pub number: u8,
    pub file: Option<File>,
    pub line: u32,
    pub column: u8,
}

/// What is wrong within one line: a refusal whose file and line are not known yet.
#[derive(Clone, Copy, Debug, PartialEq, Eq)]
pub struct Fault {
    pub number: u8,
    pub column: u8,
}

/// What an accepted set holds.
#[derive(Clone, Copy, Debug, PartialEq, Eq)]
pub struct Counts {
    pub receivers: u64,
    pub shots: u64,
    pub relations: u64,
    pub traces: u64,
    /// Those traces whose receivers are killed.
    pub dead_traces: u64,
}

/// Where a trace comes from: the line of its receiver in R, its component, and whether the
/// receiver is killed.
#[derive(Clone, Copy, Debug, PartialEq, Eq)]
pub struct Trace {
    pub r_line: u16,
    pub component: u8,
    pub killed: bool,
}

impl Fault {
    fn at(self, file: File, line: u32) -> Refusal {
        Refusal { number: self.number, file: Some(file), line, column: self.column }
    }
}

/// The refusal of a number at a line and column of a file.
fn refusal(number: u8, file: File, line: u32, column: u8) -> Refusal {
    Fault { number, column }.at(file, line)
}

/// 20 to 23 have no place.
fn placeless(number: u8) -> Refusal {
    Refusal { number, file: None, line: 0, column: 0 }
}

/// Checks the form of one file, which is R, S or X as the letter says.
pub fn form(medium: Medium, letter: u64, file: &[u8]) -> Result<(), Refusal> {
    match File::asked(letter)? {
        File::X => Form::relations(medium, file).map(drop),
        kind => Form::points(medium, kind, file).map(drop),
    }
}

/// Checks the form of three files, compares them, and counts what the set holds.
pub fn check(medium: Medium, files: Files) -> Result<Counts, Refusal> {
    set::read(medium, files).map(|set| set.counts)
}

/// From a trace to its receiver; `None` is "no trace".
pub fn trace(
    medium: Medium,
    files: Files,
    tape: &[u8],
    record: u64,
    channel: u64,
) -> Result<Option<Trace>, Refusal> {
    let asked = traces::asked(tape, record)?;
    let channel = traces::within(channel, 1..=9999)?;
    Ok(set::read(medium, files)?.trace(asked, channel))
}

/// The way back, from a line of R and a component to the channel; `None` is "no trace".
pub fn channel(
    medium: Medium,
    files: Files,
    tape: &[u8],
    record: u64,
    r_line: u64,
    component: u64,
) -> Result<Option<u16>, Refusal> {
    let asked = traces::asked(tape, record)?;
    let r_line = traces::within(r_line, 1..=9999)?;
    let component = traces::within(component, 1..=9)?;
    Ok(set::read(medium, files)?.channel(asked, r_line, component))
}

/// Fills the spread table of a record and returns its highest channel; a
/// refusal writes nothing.
pub fn spread(
    medium: Medium,
    files: Files,
    tape: &[u8],
    record: u64,
    lines: &mut [u16],
    components: &mut [u8],
) -> Result<u16, Refusal> {
    let asked = traces::asked(tape, record)?;
    set::read(medium, files)?.spread(asked, lines, components)
}

/// What the set holds, and so many of its traces from number `first` on, in the order of X and
/// counted from 0.
pub fn rows(
    medium: Medium,
    files: Files,
    first: u64,
    places: usize,
) -> Result<(Counts, Vec<Row>), Refusal> {
    let set = set::read(medium, files)?;
    let above = usize::try_from(first).unwrap_or(usize::MAX);
    Ok((set.counts, set.rows().skip(above).take(places).collect()))
}

/// The header line of R that names a code, by the letter of its kind: R for receivers, S for
/// sources, X for instruments. `None` is "none".
pub fn table_line(
    medium: Medium,
    files: Files,
    letter: u64,
    code: &[u8],
) -> Result<Option<u16>, Refusal> {
    let code = tables::Code::asked(letter, code)?;
    Ok(set::read(medium, files)?.tables.line(code))
}

/// Reads the 80 columns of a line of R or S to its values: rule 5. In R the
/// receiver codes are legal, in any other file those of shots.
pub fn read_point(file: File, line: &Line) -> Result<PointLine, Fault> {
    point::read(file, line)
}

/// Reads the 80 columns of a line of X to its values: rules 5 and 6.
pub fn read_relation(line: &Line) -> Result<Relation, Fault> {
    relation::read(line)
}

/// The values of a line of R or S in a file, by its letter and the number of the line: 20 for
/// another letter, and for a line that does not stand there or is a header line; then 3, 4 and 5
/// of that line.
pub fn point_at(
    medium: Medium,
    letter: u64,
    bytes: &[u8],
    line: u64,
) -> Result<PointValues, Refusal> {
    let file = File::asked(letter)?;
    if file == File::X {
        return Err(placeless(20));
    }
    let point = one_line::read(medium, file, bytes, line, |line| point::read(file, line))?;
    Ok(PointValues::of(file, &point))
}

/// The values of a line of X, as `point_at` has those of a point: 20, then 3 to 6.
pub fn relation_at(medium: Medium, x: &[u8], line: u64) -> Result<RelationValues, Refusal> {
    let relation = one_line::read(medium, File::X, x, line, relation::read)?;
    Ok(RelationValues::from(&relation))
}

/// Writes a point: its line with CR and LF over the first 82 bytes of a slice; later bytes
/// stay. 22 is looked for before 23, and a refusal writes nothing.
pub fn write_point(values: &PointValues, out: &mut [u8]) -> Result<(), Refusal> {
    write::point(values, out)
}

/// Writes a relation, as `write_point` does a point.
pub fn write_relation(values: &RelationValues, out: &mut [u8]) -> Result<(), Refusal> {
    write::relation(values, out)
}
