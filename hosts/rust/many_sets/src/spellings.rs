//! The two spellings of depth, easting, northing and elevation.

use crate::damage::Fields;
use crate::faults::own_lines;
use small_sets::{File, Line, Set};

/// How a decimal is written.
#[derive(Clone, Copy, Debug)]
pub enum Spelling {
    /// With a point and one digit after it.
    Pointed,
    /// Digits alone, which count tenths.
    Bare,
}

/// The decimals of a line of R or S; the depth of a marker is free text.
fn decimals(line: &Line) -> Fields {
    const ALL: Fields = &[(33, 36), (47, 55), (56, 65), (66, 71)];
    match &line.0[26..28] {
        b"PM" => &ALL[1..],
        _ => ALL,
    }
}

impl Spelling {
    /// So many tenths, in as few columns as can be.
    pub fn text(self, tenths: i64) -> String {
        self.signed(tenths < 0, tenths.unsigned_abs())
    }

    fn signed(self, minus: bool, tenths: u64) -> String {
        let sign = if minus { "-" } else { "" };
        match self {
            Spelling::Pointed => format!("{sign}{}.{}", tenths / 10, tenths % 10),
            Spelling::Bare => format!("{sign}{tenths}"),
        }
    }

    /// A line of R or S with its decimals in this spelling. Where the columns have no room
    /// for it, or hold no decimal, they stay.
    pub fn line(self, mut line: Line) -> Line {
        for &(first, last) in decimals(&line) {
            let field = &mut line.0[first - 1..last];
            let width = field.len();
            let text = tenths(field).map(|(minus, tenths)| self.signed(minus, tenths));
            if let Some(text) = text.filter(|text| text.len() <= width) {
                field.copy_from_slice(format!("{text:>width$}").as_bytes());
            }
        }
        line
    }

    /// A disc set with all its points and markers in this spelling.
    pub fn set(self, set: Set) -> Set {
        [File::R, File::S].into_iter().fold(set, |set, file| {
            own_lines(&set, file)
                .fold(set, |set, line| set.edit(file, line, |text| self.line(text)))
        })
    }
}

/// How many decimals of a disc set have a point, and how many have none.
pub fn spelt(set: &Set) -> [usize; 2] {
    let mut spelt = [0, 0];
    for file in [File::R, File::S] {
        for line in own_lines(set, file).map(|line| set.line(file, line)) {
            for &(first, last) in decimals(&line) {
                let pointed = line.0[first - 1..last].contains(&b'.');
                spelt[usize::from(!pointed)] += 1;
            }
        }
    }
    spelt
}

/// The sign and the tenths of a field of either spelling.
fn tenths(field: &[u8]) -> Option<(bool, u64)> {
    let blanks = field.iter().take_while(|&&byte| byte == b' ').count();
    let (minus, size) = match &field[blanks..] {
        [b'-', size @ ..] => (true, size),
        size => (false, size),
    };
    let digits = match size {
        [whole @ .., b'.', tenth] if !whole.is_empty() => [whole, &[*tenth]].concat(),
        _ => size.to_vec(),
    };
    if !digits.iter().all(u8::is_ascii_digit) {
        return None;
    }
    Some((minus, String::from_utf8(digits).ok()?.parse().ok()?))
}
