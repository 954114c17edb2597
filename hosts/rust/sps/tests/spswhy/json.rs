//! Answers for a program: one JSON object a set.

use crate::{folder, said, spswhy, tape, write, NAMES};
use small_sets::place::{below, first};
use small_sets::{receiver, set_a, File, Set};
use std::ffi::OsStr;
use std::fs;
use std::os::unix::ffi::OsStrExt;
use std::process::Command;

/// What is printed of a set, by its files; standard error stays empty.
fn of(name: &str, set: &Set) -> (Option<i32>, String) {
    let folder = folder(name);
    write(&folder, set);
    let (status, object, why) = said(spswhy(&folder, &["--json", NAMES[0], NAMES[1], NAMES[2]]));
    assert_eq!(why, "");
    (status, object)
}

const FILES: &str = r#""files":{"R":"set.r01","S":"set.s01","X":"set.x01"}"#;

#[test]
fn accepted() {
    let counts = r#"{"receivers":3,"shots":1,"relations":1,"traces":3,"dead_traces":0}"#;
    let expected = format!(
        concat!(
            r#"{{"folder":null,{files},"status":0,"verdict":"ACCEPTED 3 1 1 3 0","#,
            r#""counts":{counts},"refusal":null,"error":null}}"#,
        ),
        files = FILES,
        counts = counts,
    );
    assert_eq!(of("json_accepted", &set_a()), (Some(0), expected + "\n"));
}

/// All that the message says, in fields of their own.
#[test]
fn refused() {
    let set = set_a().add(File::R, receiver(103));
    let lines = [below(4), below(3)]
        .map(|line| String::from_utf8_lossy(&set.line(File::R, line).0).into_owned());
    let expected = format!(
        concat!(
            r#"{{"folder":null,{files},"status":1,"verdict":"REFUSED 10 R 28 2","counts":null,"#,
            r#""refusal":{{"number":10,"file":"R","line":28,"column":2,"path":"set.r01","#,
            r#""rule":"a receiver is not above the receiver line before it, by line name, point "#,
            r#"number and index","found":["the same as line 27"],"text":"{own}","others":"#,
            r#"[{{"path":"set.r01","line":27,"column":2,"what":"the receiver line before it","#,
            r#""text":"{other}"}}],"looks":null}},"error":null}}"#,
        ),
        files = FILES,
        own = lines[0],
        other = lines[1]
    );
    assert_eq!(of("json_refused", &set), (Some(1), expected + "\n"));
}

/// Where the breach is of no column there is no line; files of the other medium are told.
#[test]
fn no_line() {
    let set = Set { medium: small_sets::Medium::Disc, ..tape(&set_a()) };
    let (status, object) = of("json_no_line", &set);
    assert_eq!(status, Some(1));
    let end = concat!(
        r#""text":null,"others":[],"looks":"each of set.r01, set.s01, set.x01 looks like a tape, "#,
        r#"which --tape judges"},"error":null}"#,
    );
    assert!(object.ends_with(&format!("{end}\n")), "{object}");
}

/// One file has no counts.
#[test]
fn one_file() {
    let folder = folder("json_one_file");
    write(&folder, &tape(&set_a()));
    let (status, object, _) =
        said(spswhy(&folder, &["--json", "--tape", "--kind", "S", "set.s01"]));
    let expected = concat!(
        r#"{"folder":null,"files":{"S":"set.s01"},"status":0,"verdict":"ACCEPTED","counts":null,"#,
        r#""refusal":null,"error":null}"#,
    );
    assert_eq!((status, object), (Some(0), format!("{expected}\n")));
}

/// An object a line; a folder that cannot be judged says why.
#[test]
fn folders() {
    let above = folder("json_folders");
    for (name, set) in [("a", set_a()), ("b", set_a().put(File::S, first(), 75, "240000"))] {
        fs::create_dir(above.join(name)).expect("a folder");
        write(&above.join(name), &set);
    }
    fs::create_dir(above.join("c")).expect("a folder");
    let (status, objects, why) = said(spswhy(&above, &["--json", "a", "b", "c"]));
    assert_eq!((status, why.as_str()), (Some(2), ""));
    let starts: Vec<&str> = objects.lines().map(|object| &object[..30]).collect();
    let files = r#"{"folder":"a","files":{"R":"a/"#;
    assert_eq!(starts[0], files);
    assert_eq!(starts[1], files.replace('a', "b").replace("foldeb", "folder"));
    let last = concat!(
        r#"{"folder":"c","files":{},"status":2,"verdict":null,"counts":null,"refusal":null,"#,
        r#""error":"c: no file of R, whose name ends as .r01 does"}"#,
    );
    assert_eq!(objects.lines().last(), Some(last));
    assert_eq!(
        said(spswhy(&above, &["--json", "c"])),
        (Some(2), format!("{last}\n"), String::new())
    );
}

/// Quotes, backslashes and control characters of a path are escaped, and a byte that is no UTF-8
/// stands as U+FFFD; so do characters of a line.
#[test]
fn escapes() {
    let above = folder("json_escapes");
    let name = OsStr::from_bytes(b"q\"b\\n\n\x1B\xFF\xC3\xA9");
    fs::create_dir(above.join(name)).expect("a folder");
    write(&above.join(name), &set_a().put(File::S, 7, 77, "\\\"/\u{7F}"));
    let mut command = Command::new(env!("CARGO_BIN_EXE_spswhy"));
    let run = command.arg("--json").arg(name).current_dir(above).output().expect("spswhy runs");
    let (status, object, why) = said(run);
    assert_eq!((status, why.as_str()), (Some(1), ""));
    let escaped = r#"q\"b\\n\u000a\u001b"#.to_owned() + "\u{FFFD}\u{E9}";
    let start = format!(r#"{{"folder":"{escaped}","files":{{"R":"{escaped}/set.r01","#);
    assert!(object.starts_with(&start), "{object}");
    let found = concat!(
        r#""found":["column 80: found DEL (127); columns 1 to 80 take bytes 32 to 126"],"#,
        r#""text":"H06"#,
    );
    assert!(object.contains(found), "{object}");
    assert!(object.contains(r#" \\\"/?","others":[]"#), "{object}");
}
