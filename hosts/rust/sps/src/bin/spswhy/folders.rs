//! The set of a folder: its three files by the endings of their names.

use crate::files::is_packed;
use crate::words::list;
use sps::File::{self, R, S, X};
use std::ffi::OsStr;
use std::fs;
use std::path::{Path, PathBuf};

/// The kind that a name's ending says: a letter in either case, and digits.
fn kind(ending: Option<&OsStr>) -> Option<File> {
    let (letter, digits) = ending?.as_encoded_bytes().split_first()?;
    let kind = match letter {
        b'r' | b'R' => R,
        b's' | b'S' => S,
        b'x' | b'X' => X,
        _ => return None,
    };
    (!digits.is_empty() && digits.iter().all(u8::is_ascii_digit)).then_some(kind)
}

/// The files of R, S and X of a folder, or why they are not clear.
pub fn three(folder: &Path) -> Result<[PathBuf; 3], String> {
    let unread = |error| format!("{} cannot be read: {error}", folder.display());
    let mut paths = Vec::new();
    for entry in fs::read_dir(folder).map_err(unread)? {
        paths.push(entry.map_err(unread)?.path());
    }
    paths.retain(|path| !path.is_dir());
    paths.sort();
    Ok([one(folder, &paths, R)?, one(folder, &paths, S)?, one(folder, &paths, X)?])
}

/// The one file of a kind.
fn one(folder: &Path, paths: &[PathBuf], of: File) -> Result<PathBuf, String> {
    let is_it = |path: &&PathBuf| kind(path.extension()) == Some(of);
    let found: Vec<&PathBuf> = paths.iter().filter(is_it).collect();
    match found.as_slice() {
        [path] => Ok((*path).clone()),
        [] => Err(none(folder, paths, of)),
        more => {
            let number = more.len();
            let names = list(&more.iter().map(|path| base(path)).collect::<Vec<String>>());
            Err(format!("{}: {number} files of {of}, and one is needed: {names}", folder.display()))
        }
    }
}

/// That there is no file of a kind, or a compressed one.
fn none(folder: &Path, paths: &[PathBuf], of: File) -> String {
    let (folder, letter) = (folder.display(), of.to_string().to_lowercase());
    let packed = paths.iter().filter(|path| is_packed(path));
    let inside =
        |path: &&PathBuf| kind(Path::new(&path.with_extension("")).extension()) == Some(of);
    match packed.clone().find(inside) {
        Some(path) => format!("{folder}: {} is compressed (gzip): unpack it", base(path)),
        None => format!("{folder}: no file of {of}, whose name ends as .{letter}01 does"),
    }
}

/// The name without its folder.
fn base(path: &Path) -> String {
    path.file_name().map_or_else(String::new, |name| name.display().to_string())
}

#[cfg(test)]
mod tests {
    use super::*;

    #[test]
    fn endings() {
        for (ending, expected) in [
            ("r01", Some(R)),
            ("R1", Some(R)),
            ("s123", Some(S)),
            ("S01", Some(S)),
            ("x01", Some(X)),
            ("X99", Some(X)),
            ("r", None),
            ("r0a", None),
            ("rs1", None),
            ("h01", None),
            ("01", None),
            ("", None),
        ] {
            assert_eq!(kind(Some(OsStr::new(ending))), expected, "{ending}");
        }
        assert_eq!(kind(None), None);
    }
}
