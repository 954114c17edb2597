//! What the words of the command ask for.

use sps::File::{self, R, S, X};
use sps::Medium;
use std::ffi::{OsStr, OsString};
use std::path::{Path, PathBuf};

/// What is asked.
pub enum Asked {
    Help,
    Version,
    Messages,
    Judge(Judge),
}

/// What is judged, on which medium, and whether a program reads the answer.
pub struct Judge {
    pub medium: Medium,
    pub json: bool,
    pub what: What,
}

pub enum What {
    File(File, PathBuf),
    Set([PathBuf; 3]),
    Folders(Vec<PathBuf>),
}

const NEEDED: &str = "three files are needed: R, S and X, or one with --kind, or folders; \
                      --help says more";

/// Options stand before the names; `--` ends them.
pub fn asked(words: &[OsString]) -> Result<Asked, String> {
    let (mut medium, mut json, mut words) = (Medium::Disc, false, words);
    loop {
        let Some((word, rest)) = words.split_first() else { return Err(NEEDED.to_owned()) };
        match word.to_str() {
            Some("--tape") => medium = Medium::Tape,
            Some("--json") => json = true,
            Some("--help" | "-h") if rest.is_empty() => return Ok(Asked::Help),
            Some("--version") if rest.is_empty() => return Ok(Asked::Version),
            Some("--messages") if rest.is_empty() => return Ok(Asked::Messages),
            Some("--kind") => {
                let what = one_file(rest)?;
                return Ok(Asked::Judge(Judge { medium, json, what }));
            }
            _ => {
                let what = names(words)?;
                return Ok(Asked::Judge(Judge { medium, json, what }));
            }
        }
        words = rest;
    }
}

/// The words after `--kind`.
fn one_file(words: &[OsString]) -> Result<What, String> {
    let (letter, name) = match words {
        [letter, end, name] if end == "--" => (letter, name),
        [letter, name] => (letter, name),
        _ => return Err("--kind takes R, S or X, then one file; --help says more".to_owned()),
    };
    let Some(kind) = [R, S, X].into_iter().find(|kind| *letter == *kind.to_string()) else {
        return Err(format!("a kind is R, S or X, and not {letter:?}; --help says more"));
    };
    if name == "-" && words.len() == 2 {
        return Err(STANDARD_INPUT.to_owned());
    }
    Ok(What::File(kind, name.into()))
}

const STANDARD_INPUT: &str = "standard input is not read: its length is not known before its end; \
                              write it to a file and give the name";

/// The words after the options: three files, or folders.
fn names(words: &[OsString]) -> Result<What, String> {
    let (words, ended) = match words {
        [end, words @ ..] if end == "--" => (words, true),
        words => (words, false),
    };
    if !ended {
        options_are_over(words)?;
    }
    let paths: Vec<PathBuf> = words.iter().map(PathBuf::from).collect();
    let any = |is: fn(&Path) -> bool| paths.iter().any(|path| is(path));
    let folders = any(Path::is_dir);
    match <[PathBuf; 3]>::try_from(paths.clone()) {
        Ok(three) if !folders || any(Path::is_file) => Ok(What::Set(three)),
        _ if folders => Ok(What::Folders(paths)),
        _ => Err(none_there(&paths).unwrap_or_else(|| NEEDED.to_owned())),
    }
}

/// Where no name is that of anything, the first of them.
fn none_there(paths: &[PathBuf]) -> Option<String> {
    let first = paths.first().filter(|_| !paths.iter().any(|path| path.exists()))?;
    Some(format!("{} is no file and no folder; --help says more", first.display()))
}

/// Holds that no word is standard input, and that the first is no option that is not known.
fn options_are_over(words: &[OsString]) -> Result<(), String> {
    if words.iter().any(|word| word == "-") {
        return Err(STANDARD_INPUT.to_owned());
    }
    let is_option = |word: &&OsString| {
        word.as_encoded_bytes().starts_with(b"--") && !Path::new::<OsStr>(word).exists()
    };
    match words.first().filter(is_option) {
        Some(word) => Err(format!("{} is no option here; --help says more", word.display())),
        None => Ok(()),
    }
}
