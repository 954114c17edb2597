//! 7 to 9, 24 and 25.

use super::facts::{counted, headers, text};
use super::made::Refused;
use super::Claims;
use small_sets::File::{self, R, S, X};

pub fn types(refused: &Refused) -> Claims {
    let headers = headers(refused, R);
    assert_eq!(headers.len() + 1, refused.line as usize);
    let all: Vec<String> = (0..=20).map(|number| format!("H{number:02}")).collect();
    let stands = |of: &&String| headers.iter().any(|(_, text)| text.starts_with(&format!("{of} ")));
    let missing: Vec<&String> = all.iter().filter(|of| !stands(of)).collect();
    let names = missing.iter().map(|of| of.as_str()).collect::<Vec<&str>>();
    let (last, first) = names.split_last().expect("a type that is missing");
    let first = match first {
        [] => format!("missing: {last}"),
        some => format!("missing: {} and {last}", some.join(", ")),
    };
    let near = headers.iter().filter(|(_, text)| names.contains(&&text[..3]));
    let near = near.map(|(line, text)| {
        format!("line {line} is {}, which does not count as {}", &text[..4], &text[..3])
    });
    Claims::of([first].into_iter().chain(near))
}

pub fn projection(refused: &Refused) -> Claims {
    let text = text(refused);
    assert!(text.starts_with("H18 "));
    let columns = text[32..80].trim_end_matches(' ');
    let named = columns.split(';').next().expect("a first part").trim_matches(' ');
    assert!(named.is_empty() || named == "N/A", "{named}");
    Claims::of([format!(
        "columns 33 to 80: found \"{columns}\", which names no projection; needs a name, and not \
         N/A, before any semicolon"
    )])
}

pub fn differs(refused: &Refused) -> Claims {
    let (own, of_r) = (headers(refused, refused.file), headers(refused, R));
    let (line, column) = (refused.line, refused.column);
    if column > 0 {
        let at = usize::from(column) - 1;
        let [own, of_r] = [own, of_r].map(|of| of[line as usize - 1].1[at..=at].to_owned());
        assert_ne!(own, of_r);
        let found = format!("column {column}: found \"{own}\"; R has \"{of_r}\"");
        return Claims::of([found]).beside(R, line, column);
    }
    let lines = |of: usize| counted(of, "line");
    let letter = refused.file.letter();
    let (few, many) = (own.len(), of_r.len());
    let (file, found) = match few < many {
        true => (R, format!("ends after {}; that of R has {}", lines(few), lines(many))),
        false => {
            (refused.file, format!("has {}; that of R ends after {}", lines(few), lines(many)))
        }
    };
    assert_eq!(line as usize, few.min(many) + 1);
    Claims::of([format!("the header of {letter} {found}")]).beside(file, line, 1)
}

/// The file whose codes the table of a header line names, and the code.
fn naming(text: &str) -> Option<(File, &str)> {
    let number: usize = text[1..4].parse().ok()?;
    let code = &text[32..34];
    let letters = match number {
        600..=690 if number.is_multiple_of(10) => (R, "GHR"),
        700..=880 if number.is_multiple_of(20) => (S, "VEAWS"),
        400..=560 if number.is_multiple_of(20) => (X, "123456789"),
        _ => return None,
    };
    let digit = match letters.0 {
        X => code.ends_with(','),
        R | S => matches!(code.as_bytes()[1], b'1'..=b'9'),
    };
    let code = if letters.0 == X { &code[..1] } else { code };
    (letters.1.contains(&code[..1]) && digit).then_some((letters.0, code))
}

pub fn named_twice(refused: &Refused) -> Claims {
    let headers = headers(refused, R);
    let own = text(refused);
    let own = naming(&own).expect("a code");
    let (line, text) = headers.iter().find(|(_, text)| naming(text) == Some(own)).expect("a line");
    assert!(*line < refused.line);
    let found = format!("line {line}, {}, names {} before it", &text[..4], own.1);
    Claims::of([found]).beside(R, *line, 33)
}

pub fn not_named(refused: &Refused) -> Claims {
    let text = text(refused);
    let (what, tables, code) = match refused.file {
        R => ("receiver codes", "H600, H610, .. H690", &text[26..28]),
        S => ("source codes", "H700, H720, .. H880", &text[26..28]),
        X => ("instruments", "H400, H420, .. H560", &text[12..13]),
    };
    let headers = headers(refused, R);
    let of_file = |(line, text): &(u32, String)| {
        let (file, code) = naming(text)?;
        (file == refused.file).then(|| format!("{code}  line {line}, {}", &text[..4]))
    };
    let named: Vec<String> = headers.iter().filter_map(of_file).collect();
    let used = if code == " " { "1" } else { code };
    assert!(!named.iter().any(|of| of.starts_with(&format!("{used} "))), "{used} is named");
    let found = if code == " " { "a blank, which is 1" } else { code };
    let how = match named.is_empty() {
        true => format!("found {found}; the header names no {what}"),
        false => format!("found {found}; the header names these {what}:"),
    };
    let columns = match refused.file {
        R | S => "in columns 33 and 34",
        X => "by a digit in column 33 and a comma in column 34",
    };
    let tables = format!("{what} are named {columns} of {tables}");
    Claims::of([tables, how].into_iter().chain(named))
}
