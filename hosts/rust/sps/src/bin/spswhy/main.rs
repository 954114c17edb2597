//! Says of three files whether they are an SPS set, or of one whether it is well formed, and
//! if not, why: the verdict on standard output, the message on standard error.
//!
//! All it knows of files and sets is what the proved calls say. `asked` reads the words of the
//! command, `files` and `folders` find and read the files, `judge` has them judged. Of a refusal
//! `reasons` looks for what it is about, in words of the table in `rows`, and `message` puts them
//! together; `fields`, `codes` and `text` have what stands in a line, `looks` what a file looks
//! like. `report` writes it all, as lines or as `json`.

#![forbid(unsafe_code)]

mod asked;
mod codes;
mod fields;
mod files;
mod folders;
mod help;
mod json;
mod judge;
mod looks;
mod message;
mod progress;
mod reasons;
mod report;
mod rows;
mod text;
mod words;

use asked::{asked, Asked};
use report::{print, say, ACCEPTED, NO_VERDICT};
use std::ffi::OsString;
use std::process::ExitCode;

const VERSION: &str = concat!("spswhy ", env!("CARGO_PKG_VERSION"), "\n");

fn main() -> ExitCode {
    let words: Vec<OsString> = std::env::args_os().skip(1).collect();
    ExitCode::from(run(&words).unwrap_or_else(|why| {
        say(format_args!("spswhy: {why}\n"));
        NO_VERDICT
    }))
}

/// Does what is asked, and answers the status.
fn run(words: &[OsString]) -> Result<u8, String> {
    let text = match asked(words)? {
        Asked::Judge(judge) => return report::report(judge),
        Asked::Help => help::HELP.to_owned(),
        Asked::Version => VERSION.to_owned(),
        Asked::Messages => rows::table(),
    };
    print(text).map(|()| ACCEPTED)
}
