//! Lines of 82 bytes on disc, of 80 on tape: 1, 2, 29 and 3.

use crate::{refusal, tape, Fault, File, Medium, Refusal};
use std::iter::Take;
use std::slice::ChunksExact;

/// Columns 1 to 80 of a line.
pub type Line = [u8; 80];

const MOST_LINES: usize = 9_999;

/// The lines of a file, the record that ends a tape left out: 1, then 2, then 29.
pub fn cut(medium: Medium, file: File, bytes: &[u8]) -> Result<Take<ChunksExact<'_, u8>>, Refusal> {
    let lines = bytes.chunks_exact(width(medium));
    if !lines.remainder().is_empty() {
        let line = lines.len().min(MOST_LINES) as u32 + 1;
        return Err(refusal(1, file, line, 0));
    }
    if lines.len() > MOST_LINES {
        return Err(refusal(2, file, MOST_LINES as u32 + 1, 0));
    }
    let own = match medium {
        Medium::Disc => lines.len(),
        Medium::Tape => tape::before_end(file, lines.clone())?,
    };
    Ok(lines.take(own))
}

/// The bytes of a line.
fn width(medium: Medium) -> usize {
    match medium {
        Medium::Disc => 82,
        Medium::Tape => 80,
    }
}

/// A line by its number, from 1, whatever else stands in the file. The last record of a tape is
/// there to end it.
pub fn line_at(medium: Medium, bytes: &[u8], line: u64) -> Option<&[u8]> {
    let mut lines = bytes.chunks_exact(width(medium));
    let own = match medium {
        Medium::Disc => lines.len(),
        Medium::Tape => lines.len().saturating_sub(1),
    };
    let line = usize::try_from(line).ok()?;
    (1..=own.min(MOST_LINES)).contains(&line).then(|| lines.nth(line - 1))?
}

/// Whether a line starts with H, whatever stands behind it.
pub fn is_header(medium: Medium, whole: &[u8]) -> bool {
    let first = match medium {
        Medium::Disc => Some(whole[0]),
        Medium::Tape => tape::character(whole[0]),
    };
    first == Some(b'H')
}

/// The 80 columns of a line in ASCII, or 3.
pub fn columns(medium: Medium, whole: &[u8]) -> Result<Line, Fault> {
    match medium {
        Medium::Disc => printed(whole),
        Medium::Tape => tape::translated(whole),
    }
}

/// The 80 columns of a line on disc: 3 names the lowest bad column of 1 to 82.
fn printed(whole: &[u8]) -> Result<Line, Fault> {
    let mut line = [b' '; 80];
    for (column, &byte) in (1u8..).zip(whole) {
        let legal = match column {
            81 => byte == b'\r',
            82 => byte == b'\n',
            _ => (32..=126).contains(&byte),
        };
        if !legal {
            return Err(Fault { number: 3, column });
        }
    }
    line.copy_from_slice(&whole[..80]);
    Ok(line)
}
