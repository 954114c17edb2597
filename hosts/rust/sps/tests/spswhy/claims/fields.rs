//! 5: the field, its text, and what is wrong with it.

use super::facts::text;
use super::made::Refused;
use crate::message::Message;
use many_sets::lines::{OF_HEADERS, OF_POINTS, OF_RELATIONS};
use small_sets::File;

/// Holds the columns and the text, then what is wrong.
pub fn field(refused: &Refused, message: &Message) {
    let line = text(refused);
    let fields = match (line.as_bytes()[0], refused.file) {
        (b'H', _) => OF_HEADERS,
        (_, File::X) => OF_RELATIONS,
        _ => OF_POINTS,
    };
    let first = usize::from(refused.column);
    let (_, last) = fields.iter().find(|of| of.0 == first).expect("a field");
    let columns = match first == *last {
        true => format!(", column {first}: found "),
        false => format!(", columns {first} to {last}: found "),
    };
    let found = &line[first - 1..*last];
    let claim = format!("{columns}\"{found}\"; ");
    let (name, wrong) = message.found[0].split_once(&claim).expect("the columns and the text");
    assert!(message.found[1].starts_with(&format!("{name} takes: ")), "{}", message.found[1]);
    hold(refused, (first, *last), found, wrong);
}

/// Holds what is wrong with a text. Where it is too large or too small, the limit that is
/// told is taken by the naive reader, and it lies on the other side.
fn hold(refused: &Refused, columns: (usize, usize), found: &str, wrong: &str) {
    let body = found.trim_start_matches(' ');
    let size = body.strip_prefix('-').unwrap_or(body);
    let is_number = size.chars().all(|of| of.is_ascii_digit() || of == '.');
    let after = size.split_once('.').map(|(_, after)| after);
    match wrong {
        "must not be blank" => assert_eq!(body, ""),
        "must begin in the first column" => assert!(found.starts_with(' ') && !body.is_empty()),
        "must end in the last column" => assert!(found.ends_with(' ') && !body.is_empty()),
        "takes no plus sign" => assert!(found.contains('+')),
        "takes no minus" => assert!(body.starts_with('-')),
        "takes no blank inside" => assert!(body.trim_end().contains(' ')),
        "has no digit" => assert_eq!(body, "-"),
        "takes no point" => assert!(is_number && size.contains('.')),
        "needs a digit before the point" => assert!(size.starts_with('.')),
        "needs exactly one digit after the point" => {
            assert!(after.is_some_and(|after| after.len() != 1 || after == "."), "{found}");
        }
        "needs 1 to 9, or a blank for 1" => assert!(!" 123456789".contains(found)),
        "needs six digits" => assert!(!found.bytes().all(|byte| byte.is_ascii_digit())),
        "needs two digits" => assert!(!found.bytes().all(|byte| byte.is_ascii_digit())),
        "needs a blank or a digit" => assert!(!" 0123456789".contains(found)),
        _ => other(refused, columns, found, wrong),
    }
}

/// Holds a sentence that has a value of its own.
fn other(refused: &Refused, columns: (usize, usize), found: &str, wrong: &str) {
    if let Some(character) = wrong.strip_suffix(" is no digit") {
        let character = &character[1..character.len() - 1];
        assert!(found.contains(character) && !character.bytes().all(|byte| byte.is_ascii_digit()));
    } else if wrong.starts_with("is a code of ") || wrong.starts_with("is no code of ") {
        let other = if refused.file == File::R { File::S } else { File::R };
        let has = |file| small_sets::codes(file).iter().any(|code| code == found.as_bytes());
        assert!(!has(refused.file), "{found}");
        assert_eq!(has(other), wrong.starts_with("is a code of "), "{found}");
    } else {
        limit(refused, columns, found, wrong);
    }
}

/// `value is above limit`, of tenths where there is no point, or of a part of a time.
fn limit(refused: &Refused, (first, last): (usize, usize), found: &str, wrong: &str) {
    let tenths = wrong.strip_prefix("without a point it counts tenths, and ");
    let claim = tenths.unwrap_or(wrong);
    let word = if claim.contains(" is above ") { " is above " } else { " is below " };
    let (value, limit) = claim.split_once(word).unwrap_or_else(|| panic!("{wrong}"));
    if let Some((part, value)) = value.split_once(' ') {
        let at = ["hour", "minute", "second"].iter().position(|of| *of == part).expect("a part");
        assert_eq!(&found[2 * at..2 * at + 2], value);
        return assert!(value > limit, "{wrong}");
    }
    let number = |text: &str| text.trim().parse::<f64>().expect("a number");
    let scale = if tenths.is_some() { 10.0 } else { 1.0 };
    assert_eq!(number(found), number(value) * scale);
    assert_eq!(number(value) > number(limit), word == " is above ");
    let right = match tenths {
        Some(_) => limit.replace('.', ""),
        None => limit.to_owned(),
    };
    let width = last + 1 - first;
    assert!(taken(refused, first, &format!("{right:>width$}")), "{wrong}: {right}");
}

/// Whether the naive reader finds no fault in the field of a line once it has this text.
fn taken(refused: &Refused, first: usize, text: &str) -> bool {
    let mut line: naive::Line =
        std::array::from_fn(|at| super::facts::text(refused).as_bytes()[at]);
    line[first - 1..first - 1 + text.len()].copy_from_slice(text.as_bytes());
    let fault = match refused.file {
        File::R => naive::read_point(naive::File::R, &line).err(),
        File::S => naive::read_point(naive::File::S, &line).err(),
        File::X => naive::read_relation(&line).err(),
    };
    fault.is_none_or(|fault| fault.number == 6 || usize::from(fault.column) > first)
}
