//! The files, by the names that are given, and their lines.

use crate::text::shown;
use sps::{File, Medium, Point, Relation};
use std::io::{self, Read};
use std::path::{Path, PathBuf};
use std::{fmt, fs};

/// A file that is judged: what it is said to be, its name, its bytes, and how many it has on
/// disc.
pub struct Judged {
    pub medium: Medium,
    pub kind: File,
    path: PathBuf,
    pub bytes: Vec<u8>,
    pub length: u64,
}

/// One line more than a file may have.
const TOO_MANY: u64 = 10_000;

/// The first bytes of a compressed file.
pub const GZIP: [u8; 2] = [0x1F, 0x8B];

impl Judged {
    /// Reads a file, or says why it cannot be read.
    ///
    /// Of a file of more than 10,000 lines the bytes are a shorter one's that the checks
    /// cannot tell from it: 10,000 lines, and the bytes by which the length is no multiple
    /// of a line's. Whatever its bytes, a file of so many lines is refused with 1 or 2 at
    /// line 10,000, and which of them depends on those bytes over. So no file is too
    /// large to be judged. A device or a pipe has no length and is not read.
    pub fn read(medium: Medium, kind: File, path: &Path) -> Result<Judged, String> {
        let unread = |error| format!("{} cannot be read: {error}", path.display());
        let (bytes, length) = bytes(path, width(medium) as u64).map_err(unread)?;
        if is_packed(path) && bytes.starts_with(&GZIP) {
            let path = path.display();
            return Err(format!("{path} is compressed (gzip): unpack it, then give the file"));
        }
        Ok(Judged { medium, kind, path: path.to_owned(), bytes, length })
    }

    pub fn name(&self) -> impl fmt::Display + use<'_> {
        self.path.display()
    }

    pub fn path(&self) -> &Path {
        &self.path
    }

    pub fn width(&self) -> usize {
        width(self.medium)
    }

    /// Whether all bytes of the file are there.
    pub fn is_whole(&self) -> bool {
        self.bytes.len() as u64 == self.length
    }

    /// The whole lines that are there.
    pub fn lines(&self) -> u64 {
        (self.bytes.len() / self.width()) as u64
    }

    /// The bytes of a whole line, from 1.
    pub fn bytes_of(&self, line: u64) -> Option<&[u8]> {
        let above = usize::try_from(line).ok()?.checked_sub(1)?;
        self.bytes.chunks_exact(self.width()).nth(above)
    }

    /// The characters of a whole line, on disc with what stands for its CR and LF.
    pub fn text(&self, line: u64) -> Option<Vec<u8>> {
        Some(shown(self.medium, self.bytes_of(line)?))
    }

    /// The texts of all whole lines with their numbers.
    pub fn texts(&self) -> impl Iterator<Item = (u64, Vec<u8>)> + '_ {
        let lines = self.bytes.chunks_exact(self.width());
        (1..).zip(lines.map(|line| shown(self.medium, line)))
    }

    /// The header lines.
    pub fn headers(&self) -> Vec<(u64, Vec<u8>)> {
        self.texts().take_while(|(_, text)| text.starts_with(b"H")).collect()
    }

    /// The points and markers of R or S, as the proved call reads them.
    pub fn points(&self) -> impl DoubleEndedIterator<Item = (u64, Point)> + '_ {
        let read = |line| sps::read_point(self.medium, self.kind, &self.bytes, line).ok();
        (1..=self.lines()).filter_map(move |line| Some((line, read(line)?)))
    }

    /// The lines of X, likewise.
    pub fn relations(&self) -> impl DoubleEndedIterator<Item = (u64, Relation)> + '_ {
        (1..=self.lines()).filter_map(|line| Some((line, self.relation(line)?)))
    }

    /// A line of X.
    pub fn relation(&self, line: u64) -> Option<Relation> {
        sps::read_relation(self.medium, &self.bytes, line).ok()
    }
}

/// The bytes of a line.
fn width(medium: Medium) -> usize {
    match medium {
        Medium::Disc => 82,
        Medium::Tape => 80,
    }
}

/// Whether a name is that of a compressed file.
pub fn is_packed(path: &Path) -> bool {
    path.extension().is_some_and(|ending| ending.eq_ignore_ascii_case("gz"))
}

/// What is read of a file, and its length.
fn bytes(path: &Path, line: u64) -> io::Result<(Vec<u8>, u64)> {
    // Opening a pipe waits for its other end, so it is looked at first.
    if !fs::metadata(path)?.is_file() {
        return Err(io::Error::other("not a regular file"));
    }
    let file = fs::File::open(path)?;
    let length = file.metadata()?.len();
    let most = TOO_MANY * line;
    let over = if length > most { length % line } else { line };
    let mut bytes = Vec::new();
    file.take(most + over).read_to_end(&mut bytes)?;
    let length = if length > most { length } else { bytes.len() as u64 };
    Ok((bytes, length))
}
