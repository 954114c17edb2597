//! The form of one file: 1, 2, on tape 29, then line by line 3, 4, 5 and 6.

use crate::lines::{columns, cut};
use crate::{header, point, relation, Fault, File, Line, Medium, PointLine, Refusal, Relation};

/// A well-formed file: its header block, then its data lines as they are read.
pub struct Form<T> {
    pub headers: Vec<Line>,
    pub data: Vec<T>,
}

/// One line as it is read.
enum Read<T> {
    Header(Line),
    Data(T),
}

impl Form<PointLine> {
    /// The form of R or S.
    pub fn points(medium: Medium, file: File, bytes: &[u8]) -> Result<Self, Refusal> {
        Form::of(medium, file, bytes, |line| point::read(file, line))
    }
}

impl Form<Relation> {
    /// The form of X.
    pub fn relations(medium: Medium, bytes: &[u8]) -> Result<Self, Refusal> {
        Form::of(medium, File::X, bytes, relation::read)
    }
}

impl<T> Form<T> {
    /// Reads a file whose data lines start with its letter and are read by `read`.
    fn of(
        medium: Medium,
        file: File,
        bytes: &[u8],
        read: impl Fn(&Line) -> Result<T, Fault>,
    ) -> Result<Self, Refusal> {
        let mut form = Form { headers: Vec::new(), data: Vec::new() };
        for (number, whole) in (1..).zip(cut(medium, file, bytes)?) {
            let header_allowed = form.data.is_empty();
            let line = columns(medium, whole);
            match line.and_then(|line| one(file, line, header_allowed, &read)) {
                Ok(Read::Header(line)) => form.headers.push(line),
                Ok(Read::Data(data)) => form.data.push(data),
                Err(fault) => return Err(fault.at(file, number)),
            }
        }
        Ok(form)
    }

    /// The data lines with their line numbers.
    pub fn numbered(&self) -> impl Iterator<Item = (u32, &T)> {
        (self.headers.len() as u32 + 1..).zip(&self.data)
    }
}

/// One line: 4, then 5 and 6.
fn one<T>(
    file: File,
    line: Line,
    header_allowed: bool,
    read: impl Fn(&Line) -> Result<T, Fault>,
) -> Result<Read<T>, Fault> {
    if line[0] == b'H' && header_allowed {
        header::read(&line)?;
        Ok(Read::Header(line))
    } else if line[0] == file.letter() {
        read(&line).map(Read::Data)
    } else {
        Err(Fault { number: 4, column: 1 })
    }
}
