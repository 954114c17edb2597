//! Set A, and edits that give another set.

use crate::line::{first_record, header, receiver, relation, shot, Line};
use crate::place::first;
use crate::tape;
use File::{R, S, X};

/// What a set is written on; its number is the one that a C host gives.
#[derive(Clone, Copy, Debug, Default, PartialEq, Eq)]
pub enum Medium {
    #[default]
    Disc = 1,
    Tape = 2,
}

impl Medium {
    /// The bytes of a line.
    pub fn width(self) -> usize {
        match self {
            Medium::Disc => 82,
            Medium::Tape => 80,
        }
    }

    /// What ends each line.
    fn line_end(self) -> &'static [u8] {
        match self {
            Medium::Disc => b"\r\n",
            Medium::Tape => b"",
        }
    }

    fn blank(self) -> u8 {
        match self {
            Medium::Disc => b' ',
            Medium::Tape => tape::byte_of(b' ').expect("a character of a tape"),
        }
    }
}

/// One of the three files; its number is the one that a C host gets.
#[derive(Clone, Copy, Debug, PartialEq, Eq)]
pub enum File {
    R = 1,
    S = 2,
    X = 3,
}

impl File {
    pub const ALL: [File; 3] = [R, S, X];

    pub fn letter(self) -> &'static str {
        match self {
            R => "R",
            S => "S",
            X => "X",
        }
    }

    /// The byte of its letter, by which a question names it.
    pub fn kind(self) -> u64 {
        self.letter().as_bytes()[0].into()
    }

    /// The file that a question names.
    pub fn of_kind(kind: u64) -> Option<File> {
        File::ALL.into_iter().find(|file| file.kind() == kind)
    }
}

/// The bytes of the three files, in the form of their medium.
#[derive(Clone, Debug, Default, PartialEq, Eq)]
pub struct Set {
    pub medium: Medium,
    pub r: Vec<u8>,
    pub s: Vec<u8>,
    pub x: Vec<u8>,
}

/// The header blocks of set A: H00 to H20, H18 holding `UTM;`, then tables for 1, G1 and V1.
pub fn headers_only() -> Set {
    let types = (0..=20).map(|number| match number {
        18 => header(number).at(33, "UTM;"),
        _ => header(number),
    });
    let block = types.chain(["1", "G1", "V1"].map(|code| first_record(0, code)));
    Set::default().each(|set, file| set.add_all(file, block.clone()))
}

/// Set A of the paper.
pub fn set_a() -> Set {
    headers_only().add_all(R, [101, 102, 103].map(receiver)).add(S, shot(501)).add(X, relation())
}

/// Lines and columns count from 1, and hold the medium's own bytes. An edit outside the
/// file is a fault of the table.
impl Set {
    pub fn file(&self, file: File) -> &[u8] {
        match file {
            R => &self.r,
            S => &self.s,
            X => &self.x,
        }
    }

    pub fn file_mut(&mut self, file: File) -> &mut Vec<u8> {
        match file {
            R => &mut self.r,
            S => &mut self.s,
            X => &mut self.x,
        }
    }

    /// R, S and X.
    pub fn files(&self) -> [&[u8]; 3] {
        File::ALL.map(|file| self.file(file))
    }

    /// The number of whole lines of a file.
    pub fn lines(&self, file: File) -> usize {
        self.file(file).len() / self.medium.width()
    }

    /// Where a line starts.
    pub fn start(&self, line: usize) -> usize {
        (line - 1) * self.medium.width()
    }

    /// The columns of a line.
    pub fn line(&self, file: File, line: usize) -> Line {
        let columns = &self.file(file)[self.start(line)..];
        Line(std::array::from_fn(|at| columns[at]))
    }

    /// A line changed as a whole.
    pub fn edit(mut self, file: File, line: usize, change: impl FnOnce(Line) -> Line) -> Set {
        let start = self.start(line);
        let Line(after) = change(self.line(file, line));
        self.file_mut(file)[start..start + 80].copy_from_slice(&after);
        self
    }

    /// Text put over the columns from `column` on.
    pub fn put(self, file: File, line: usize, column: usize, text: &str) -> Set {
        self.edit(file, line, |columns| columns.at(column, text))
    }

    /// One byte at a column, on disc of 1 to 82.
    pub fn byte(mut self, file: File, line: usize, column: usize, byte: u8) -> Set {
        let start = self.start(line);
        self.file_mut(file)[start + column - 1] = byte;
        self
    }

    /// A line put in as number `line`; those from there on move down.
    pub fn insert(mut self, file: File, line: usize, text: Line) -> Set {
        let start = self.start(line);
        let bytes = text.0.into_iter().chain(self.medium.line_end().iter().copied());
        self.file_mut(file).splice(start..start, bytes);
        self
    }

    /// A line added at the end.
    pub fn add(self, file: File, text: Line) -> Set {
        let end = self.lines(file) + 1;
        self.insert(file, end, text)
    }

    pub fn add_all(self, file: File, texts: impl IntoIterator<Item = Line>) -> Set {
        texts.into_iter().fold(self, |set, text| set.add(file, text))
    }

    /// A line taken out; those below move up.
    pub fn remove(mut self, file: File, line: usize) -> Set {
        let lines = self.start(line)..self.start(line + 1);
        self.file_mut(file).drain(lines);
        self
    }

    /// A file cut to its first bytes.
    pub fn cut(mut self, file: File, bytes: usize) -> Set {
        self.file_mut(file).truncate(bytes);
        self
    }

    /// Blanks after the end of a file.
    pub fn over(mut self, file: File, bytes: usize) -> Set {
        let end = self.file(file).len() + bytes;
        let blank = self.medium.blank();
        self.file_mut(file).resize(end, blank);
        self
    }

    /// First records below set A's header, one for each code, in each of the three files; all
    /// other lines move down.
    pub fn naming(self, codes: &[&str]) -> Set {
        let records = (1..).zip(codes).map(|(at, code)| first_record(at, code));
        let records: Vec<Line> = records.collect();
        self.each(|set, file| {
            records.iter().rev().fold(set, |set, &record| set.insert(file, first(), record))
        })
    }

    /// The same edit in each of the three files.
    pub fn each(self, change: impl Fn(Set, File) -> Set) -> Set {
        File::ALL.into_iter().fold(self, change)
    }
}
