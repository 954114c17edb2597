//! 1 to 4, 6 and 29.

use super::facts::{counted, text};
use super::made::Refused;
use super::Claims;
use crate::message::{shown, Message};
use small_sets::{File, Medium};

/// 1: the numbers, and of a disc file the line that is none.
pub fn length(refused: &Refused, message: &Message) {
    let bytes = refused.set.file(refused.file);
    let width = refused.set.medium.width();
    let of = match refused.set.medium {
        Medium::Disc => "line",
        Medium::Tape => "record",
    };
    let (lines, more) = (counted(bytes.len() / width, of), bytes.len() % width);
    let all = counted(bytes.len(), "byte");
    let expected = format!("{all} are {lines} of {width} and {more} more");
    let [found] = &message.found[..] else { panic!("{:?}", message.found) };
    let mut sentences = found.split(". ");
    assert_eq!(sentences.next(), Some(&*expected));
    sentences.for_each(|sentence| looks(bytes, sentence));
}

/// What a sentence says of a file: how it begins, how it ends, or its first line, as LF ends
/// lines, that is none of 80 columns with CR and LF.
fn looks(bytes: &[u8], sentence: &str) {
    let rest = bytes.strip_prefix(b"\xEF\xBB\xBF");
    match sentence {
        "The last byte is Ctrl-Z (26), which must go" => assert_eq!(bytes.last(), Some(&26)),
        "The file is compressed (gzip): unpack it" => assert!(bytes.starts_with(b"\x1F\x8B")),
        "The file starts with a UTF-8 mark, 3 bytes that must go" => assert!(rest.is_some()),
        _ => assert_eq!(sentence, odd_line(rest.unwrap_or(bytes))),
    }
}

fn odd_line(bytes: &[u8]) -> String {
    let lines = (1..).zip(bytes.split_inclusive(|byte| *byte == b'\n'));
    let mut odd = lines.filter(|(_, line)| !(line.len() == 82 && line.ends_with(b"\r\n")));
    let (number, line) = odd.next().expect("a line that is none");
    let text = line.strip_suffix(b"\r\n").unwrap_or(line);
    let columns = |bytes: &[u8]| counted(bytes.len(), "column");
    if text.contains(&b'\r') {
        return format!("Line {number} ends in CR without LF");
    }
    if line.ends_with(b"\r\n") {
        let cut = text.len() < 80 && !text.ends_with(b" ");
        let why = if cut { " (trailing blanks may be cut)" } else { "" };
        return format!("Line {number} has {} and not 80 before CR and LF{why}", columns(text));
    }
    if line.ends_with(b"\n") {
        return format!("Line {number} ends in LF without CR (Unix line ends)");
    }
    let end = line.iter().rposition(|byte| *byte != 26).map_or(0, |at| at + 1);
    format!("Line {number}, the last, has {} and no CR and LF", columns(&line[..end]))
}

/// 2: how many lines there are.
pub fn lines(refused: &Refused, message: &Message) {
    let lines = refused.set.lines(refused.file);
    let expected = match refused.set.medium {
        Medium::Disc => format!("{}; at most 9,999 are taken", counted(lines, "line")),
        Medium::Tape => {
            let records = counted(lines, "record");
            format!("{records}, the EOF record among them; at most 9,999 are taken")
        }
    };
    assert_eq!(message.found, [expected]);
}

/// 3: the byte, by its number, and what the column takes.
pub fn byte(refused: &Refused, message: &Message) {
    let Refused { set, file, line, column, .. } = refused;
    let byte = set.file(*file)[set.start(*line as usize) + usize::from(*column) - 1];
    let number = match (set.medium, byte) {
        (Medium::Disc, 0..=127) => format!(" ({byte}); "),
        _ => format!("found 0x{byte:02X}; "),
    };
    let needs = match (set.medium, column) {
        (Medium::Tape, _) => "taken are, in code page 037, a blank, ",
        (Medium::Disc, 81) => "needs CR (13)",
        (Medium::Disc, 82) => "needs LF (10)",
        (Medium::Disc, _) => "columns 1 to 80 take bytes 32 to 126",
    };
    let [found, looks @ ..] = &message.found[..] else { panic!("{:?}", message.found) };
    assert!(found.starts_with(&format!("column {column}: found ")), "{found}");
    assert!(found.contains(&(number + needs)), "{found}");
    looks.iter().for_each(|sentence| self::looks(set.file(*file), sentence));
}

/// EOF in the bytes of a tape.
const EOF: [u8; 3] = [0xC5, 0xD6, 0xC6];

/// The lines of a file that are no header lines, with their letters. The record that ends a tape
/// is none of them.
fn data(refused: &Refused, file: File) -> Vec<(u32, String)> {
    let set = &refused.set;
    let records = set.file(file).chunks_exact(set.medium.width());
    let end = match set.medium {
        Medium::Disc => None,
        Medium::Tape => records.clone().position(|record| record[..3] == EOF),
    };
    let lines = 1..=end.unwrap_or(records.len()) as u32;
    let letters = lines.map(|line| (line, shown(set, file as u8, line)[..1].to_owned()));
    letters.filter(|(_, letter)| letter != "H").collect()
}

pub fn letter(refused: &Refused) -> Claims {
    let own = &text(refused)[..1];
    let lines = data(refused, refused.file);
    let (line, _) = &lines[0];
    let letter = refused.file.letter();
    if own == "H" {
        let found = format!("column 1: found \"H\"; below line {line} needs {letter}");
        return Claims::of([found]).beside(refused.file, *line, 1);
    }
    let header = if *line == refused.line { "H or " } else { "" };
    let found = format!("column 1: found \"{own}\"; needs {header}{letter}");
    if !["R", "S", "X"].contains(&own) || lines.iter().any(|(_, of)| of == letter) {
        return Claims::of([found]);
    }
    let [r, s, x] = File::ALL.map(|file| match &data(refused, file)[..] {
        [] => "nothing".to_owned(),
        [(_, letter), ..] => letter.clone(),
    });
    let order = format!(
        "below their headers the files begin with {r}, {s} and {x}; needed are R, S and X, in this \
         order"
    );
    Claims::of([found, format!("this looks like an {own} file"), order])
}

/// The number in some columns of a line; a blank column is 1.
fn number(text: &str, first: usize, last: usize) -> u32 {
    match text[first - 1..last].trim() {
        "" => 1,
        digits => digits.parse().expect("a number"),
    }
}

pub fn channels(refused: &Refused) -> Claims {
    let text = text(refused);
    let [from, to, increment] = [(39, 42), (43, 46), (47, 47)].map(|(a, b)| number(&text, a, b));
    let [first, last] = [(64, 71), (72, 79)].map(|(a, b)| number(&text, a, b));
    let many =
        |number: u32, one: &str| format!("{number} {one}{}", if number == 1 { "" } else { "s" });
    Claims::of([match refused.column {
        39 => {
            assert!(from > to);
            format!("channels {from} to {to}: {from} is above {to}")
        }
        47 => {
            assert_ne!((to - from + 1) % increment, 0);
            let channels = to - from + 1;
            format!("channels {from} to {to} are {channels}, which is no multiple of {increment}")
        }
        _ => {
            let (channels, receivers) = (to - from + 1, (to - from + 1) / increment);
            let named = first.max(last) - first.min(last) + 1;
            assert_ne!(receivers, named);
            let [channels, receivers] = [many(channels, "channel"), many(receivers, "receiver")];
            format!("{channels} by {increment} are {receivers}; {first} to {last} are {named}")
        }
    }])
}

pub fn end(refused: &Refused) -> Claims {
    let records = refused.set.lines(refused.file) as u32;
    let texts = (1..=records).map(|line| (line, shown(&refused.set, refused.file as u8, line)));
    let many = |number: u32| counted(number as usize, "record");
    match texts.into_iter().find(|(_, text)| text.starts_with("EOF")) {
        None => {
            let records = many(records);
            Claims::of([format!("{records}, none with EOF in columns 1 to 3; needs one")])
        }
        Some((end, _)) => {
            let more = many(records - end);
            let found = format!(
                "record {end} has EOF in columns 1 to 3 and must be the last; behind it: {more}"
            );
            Claims::of([found]).beside(refused.file, end, 1)
        }
    }
}
