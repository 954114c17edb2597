//! Files judged by the proved calls.

use crate::files::Judged;
use crate::folders;
use sps::File::{self, R, S, X};
use sps::{Accepted, Medium, Refusal, Set};
use std::path::{Path, PathBuf};

/// The files, and what is said of them: one is accepted without counts.
pub struct Judgement {
    pub files: Vec<Judged>,
    pub verdict: Result<Option<Accepted>, Refusal>,
}

impl Judgement {
    /// The line on standard output.
    pub fn line(&self) -> String {
        match &self.verdict {
            Ok(Some(accepted)) => accepted.to_string(),
            Ok(None) => "ACCEPTED".to_owned(),
            Err(refusal) => refusal.to_string(),
        }
    }
}

/// Reads one file and has its form checked as that of a kind.
pub fn file(medium: Medium, kind: File, path: &Path) -> Result<Judgement, String> {
    let file = Judged::read(medium, kind, path)?;
    let verdict = sps::form(medium, kind, &file.bytes).map(|()| None);
    Ok(Judgement { files: vec![file], verdict })
}

/// Reads three files and has them cross-checked.
pub fn set(medium: Medium, [r, s, x]: &[PathBuf; 3]) -> Result<Judgement, String> {
    let read = |kind, path| Judged::read(medium, kind, path);
    let files = [read(R, r)?, read(S, s)?, read(X, x)?];
    let [r, s, x] = &files;
    let verdict = Set::new(medium, &r.bytes, &s.bytes, &x.bytes).cross().map(Some);
    Ok(Judgement { files: files.into(), verdict })
}

/// The same of the three files of a folder.
pub fn folder(medium: Medium, folder: &Path) -> Result<Judgement, String> {
    if !folder.is_dir() {
        return Err(format!("{} is no folder", folder.display()));
    }
    set(medium, &folders::three(folder)?)
}
