//! What is written: verdicts on standard output, messages on standard error.

use crate::asked::{Judge, What};
use crate::judge::{self, Judgement};
use crate::message::Message;
use crate::progress::Progress;
use crate::words::plural;
use crate::{json, looks};
use std::fmt::Display;
use std::io::{self, IsTerminal, Write};
use std::path::{Path, PathBuf};

pub const ACCEPTED: u8 = 0;
pub const REFUSED: u8 = 1;
pub const NO_VERDICT: u8 = 2;

/// Judges what is asked, writes what is found, and answers the status.
pub fn report(Judge { medium, json, what }: Judge) -> Result<u8, String> {
    match what {
        What::File(kind, path) => one(json, None, judge::file(medium, kind, &path)),
        What::Set(paths) => one(json, None, judge::set(medium, &paths)),
        What::Folders(folders) => match folders.as_slice() {
            [folder] => one(json, Some(folder), judge::folder(medium, folder)),
            folders => many(json, folders, |folder| judge::folder(medium, folder)),
        },
    }
}

fn status(found: &Result<Judgement, String>) -> u8 {
    match found {
        Ok(judgement) if judgement.verdict.is_ok() => ACCEPTED,
        Ok(_) => REFUSED,
        Err(_) => NO_VERDICT,
    }
}

/// One set or file. Where it could not be read the caller says why.
fn one(json: bool, folder: Option<&Path>, found: Result<Judgement, String>) -> Result<u8, String> {
    let status = status(&found);
    if json {
        print(format_args!("{}\n", json::object(folder, status, &found)))?;
        return Ok(status);
    }
    let judgement = found?;
    print(format_args!("{}\n", judgement.line()))?;
    explain(&judgement);
    Ok(status)
}

/// Folders one after another, then how many were accepted, refused or not judged.
fn many(
    json: bool,
    folders: &[PathBuf],
    judge: impl Fn(&Path) -> Result<Judgement, String>,
) -> Result<u8, String> {
    let mut tally = [0; 3];
    let (mut progress, is_terminal) = (Progress::new(), io::stdout().is_terminal());
    for (done, folder) in folders.iter().enumerate() {
        progress.tell(done, folders.len());
        let found = judge(folder);
        let status = status(&found);
        tally[usize::from(status)] += 1;
        if is_terminal || (!json && status != ACCEPTED) {
            progress.clear();
        }
        if json {
            print(format_args!("{}\n", json::object(Some(folder), status, &found)))?;
        } else {
            line_of(folder, &found)?;
        }
    }
    progress.clear();
    if !json {
        let [accepted, refused, none] = tally;
        let (all, of) = (folders.len(), plural(folders.len() as u64, "folder"));
        say(format_args!(
            "{all} {of}: {accepted} accepted, {refused} refused, {none} without verdict\n"
        ));
    }
    let worst = (0..=NO_VERDICT).rev().find(|status| tally[usize::from(*status)] > 0);
    Ok(worst.unwrap_or(ACCEPTED))
}

/// The line of one of several folders, and its message.
fn line_of(folder: &Path, found: &Result<Judgement, String>) -> Result<(), String> {
    let folder = folder.display();
    match found {
        Ok(judgement) => {
            print(format_args!("{folder}: {}\n", judgement.line()))?;
            explain(judgement);
        }
        Err(why) => {
            print(format_args!("{folder}: NO VERDICT\n"))?;
            say(format_args!("spswhy: {why}\n"));
        }
    }
    Ok(())
}

/// Says why files are refused.
fn explain(Judgement { files, verdict }: &Judgement) {
    if let Err(refusal) = *verdict {
        say(Message::of(refusal, files));
        say(looks::like_other(files));
    }
}

/// Writes to standard output.
pub fn print(text: impl Display) -> Result<(), String> {
    if !started::output_takes() {
        return Err("standard output is closed, or open for reading alone".to_owned());
    }
    let mut out = io::stdout().lock();
    let written = write!(out, "{text}").and_then(|()| out.flush());
    written.map_err(|error| format!("standard output cannot be written: {error}"))
}

/// Writes to standard error; where that cannot be written nobody reads it.
pub fn say(text: impl Display) {
    let _ = write!(io::stderr().lock(), "{text}");
}
