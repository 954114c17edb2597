//! A refusal with its place, and the number that it comes in.

use crate::Number;
use std::error::Error;
use std::fmt;

/// One of the three files of a set, or the kind of a single one.
///
/// ```
/// # use sps::File;
/// assert_eq!(File::X.to_string(), "X");
/// ```
#[derive(Clone, Copy, Debug, PartialEq, Eq, Hash)]
pub enum File {
    /// The receivers.
    R,
    /// The shots.
    S,
    /// The relations.
    X,
}

impl File {
    /// The number by which a call takes it: its letter.
    pub(crate) fn number(self) -> u64 {
        match self {
            File::R => b'R'.into(),
            File::S => b'S'.into(),
            File::X => b'X'.into(),
        }
    }
}

/// The first breach of a rule. Shown, it is the verdict line of the program.
///
/// ```
/// # use sps::{File, Medium, Number, Refusal, Set};
/// let refusal = Set::new(Medium::Disc, b"", b"", b"").cross().unwrap_err();
/// let Refusal { number, file, line, column } = refusal;
/// assert_eq!((number, file, line, column), (Number::HeaderType, Some(File::R), 1, 0));
/// assert_eq!(refusal.to_string(), "REFUSED 7 R 1 0");
/// ```
#[derive(Clone, Copy, Debug, PartialEq, Eq, Hash)]
pub struct Refusal {
    /// Which of the paper's refusals it is.
    pub number: Number,
    /// The file of the breach; none for questions (20), slices (21 and 23) and values (22).
    pub file: Option<File>,
    /// Its line, from 1; 0 where there is no file.
    pub line: u64,
    /// Its column, from 1; 0 where the breach is of no column.
    pub column: u64,
}

impl Refusal {
    /// The refusal `number * 2^40 + file * 2^32 + line * 256 + column`.
    fn of(packed: u64) -> Refusal {
        let file = match packed >> 32 & 0xFF {
            1 => Some(File::R),
            2 => Some(File::S),
            3 => Some(File::X),
            _ => None,
        };
        let (line, column) = (packed >> 8 & 0xFF_FFFF, packed & 0xFF);
        Refusal { number: Number::of(packed >> 40), file, line, column }
    }
}

/// What a call answers: a number below 2^40, or a refusal.
pub fn answer(packed: u64) -> Result<u64, Refusal> {
    match packed >> 40 {
        0 => Ok(packed),
        _ => Err(Refusal::of(packed)),
    }
}

impl fmt::Display for File {
    fn fmt(&self, f: &mut fmt::Formatter) -> fmt::Result {
        fmt::Debug::fmt(self, f)
    }
}

impl fmt::Display for Refusal {
    fn fmt(&self, f: &mut fmt::Formatter) -> fmt::Result {
        let Refusal { number, file, line, column } = self;
        write!(f, "REFUSED {}", number.code())?;
        match file {
            Some(file) => write!(f, " {file} {line} {column}"),
            None => Ok(()),
        }
    }
}

impl Error for Refusal {}

#[cfg(test)]
mod tests {
    use super::*;

    /// Every packed number has a refusal, also those that no call gives.
    #[test]
    fn parts() {
        let refusal = |number, file, line, column| Err(Refusal { number, file, line, column });
        assert_eq!(answer((1 << 40) - 1), Ok((1 << 40) - 1));
        assert_eq!(answer(1 << 40), refusal(Number::FileLength, None, 0, 0));
        let x = (6 << 40) + (3 << 32) + 25 * 256 + 72;
        assert_eq!(answer(x), refusal(Number::Channels, Some(File::X), 25, 72));
        let all = refusal(Number::Unknown(0xFF_FFFF), None, 0xFF_FFFF, 0xFF);
        assert_eq!(answer(u64::MAX), all);
    }
}
