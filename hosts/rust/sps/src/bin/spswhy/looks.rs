//! What files look like that are no lines of their medium. The verdict stays.

use crate::files::{Judged, GZIP};
use crate::rows::form::*;
use crate::words::counted;
use sps::Medium;

/// A line that names files that look as if they were of the other medium, or nothing.
pub fn like_other(files: &[Judged]) -> String {
    let Some(medium) = files.first().map(|file| file.medium) else { return String::new() };
    let (looks, what): (fn(&[u8]) -> bool, _) = match medium {
        Medium::Disc => (like_tape, "tape, which --tape judges"),
        Medium::Tape => (like_disc, "disc file, which is judged without --tape"),
    };
    let others = files.iter().filter(|file| looks(&file.bytes));
    let names: Vec<String> = others.map(|file| file.name().to_string()).collect();
    match names.as_slice() {
        [] => String::new(),
        [name] => format!("{name} looks like a {what}\n"),
        names => format!("each of {} looks like a {what}\n", names.join(", ")),
    }
}

/// In the bytes of a tape: H, R, S or X first, or EOF in the last record.
fn like_tape(file: &[u8]) -> bool {
    const EOF: [u8; 3] = [0xC5, 0xD6, 0xC6];
    let last = file.rchunks_exact(80).next();
    matches!(file, [0xC8 | 0xD9 | 0xE2 | 0xE7, ..])
        || last.is_some_and(|record| record.starts_with(&EOF))
}

/// CR and LF at the end of the first line.
fn like_disc(file: &[u8]) -> bool {
    file.get(80..82) == Some(b"\r\n")
}

/// The first bytes that some editors write.
const UTF_8: [u8; 3] = [0xEF, 0xBB, 0xBF];

/// The end of a file to some old programs.
const END: u8 = 26;

/// What a file looks like: how it begins, its first line that is none of 80 columns with CR
/// and LF, how it ends.
pub fn like(file: &Judged) -> Vec<String> {
    if file.bytes.starts_with(&GZIP) {
        return vec![PACKED.plain()];
    }
    if file.medium == Medium::Tape || like_tape(&file.bytes) {
        return Vec::new();
    }
    let rest = file.bytes.strip_prefix(&UTF_8);
    let mark = rest.map(|_| UTF_8_MARK.plain());
    let lines = rest.unwrap_or(&file.bytes);
    let ended = file.is_whole() && lines.last() == Some(&END);
    let end = ended.then(|| CTRL_Z.plain());
    mark.into_iter().chain(odd_line(lines, file.is_whole())).chain(end).collect()
}

/// The first line, as LF ends lines, that is none of 80 columns with CR and LF. The last one is
/// looked at where the file is there as a whole.
fn odd_line(bytes: &[u8], is_whole: bool) -> Option<String> {
    let lines = (1..).zip(bytes.split_inclusive(|byte| *byte == b'\n'));
    let mut odd = lines.filter_map(|(line, text)| match text {
        [columns @ .., b'\r', b'\n'] if columns.len() == 80 => None,
        [columns @ .., b'\r', b'\n'] if !columns.contains(&b'\r') => {
            Some(other_width(line, columns))
        }
        _ if text.contains(&b'\r') && (is_whole || text.ends_with(b"\n")) => {
            Some(CR_ALONE.with(&[&line]))
        }
        [.., b'\n'] => Some(LF_ALONE.with(&[&line])),
        last if is_whole => no_line_end(line, last),
        _ => None,
    });
    odd.next()
}

/// A line with CR and LF whose columns are not 80.
fn other_width(line: u64, columns: &[u8]) -> String {
    let words = match columns {
        [.., b' '] => OTHER_WIDTH,
        _ if columns.len() < 80 => CUT_BLANKS,
        _ => OTHER_WIDTH,
    };
    words.with(&[&line, &counted(columns.len() as u64, "column")])
}

/// The bytes after the last LF, but for what ends the file.
fn no_line_end(line: u64, last: &[u8]) -> Option<String> {
    let end = last.iter().rev().take_while(|byte| **byte == END).count();
    let columns = counted((last.len() - end) as u64, "column");
    (end < last.len()).then(|| NO_LINE_END.with(&[&line, &columns]))
}
