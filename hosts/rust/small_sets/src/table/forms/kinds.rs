//! Which kinds there are, and a file as each of them.

use super::form;
use crate::place::first;
use crate::table::tapes::tape;
use crate::table::write::{ask, placeless, refused};
use crate::tape::end;
use crate::{headers_only, set_a, Answer, Case, File, Medium, Question, Set};

pub fn cases() -> Vec<Case> {
    [each_kind(), without_lines(), other_kinds()].concat()
}

/// Each file of set A is one of its own kind. As another its first line below the header has
/// the wrong letter.
fn each_kind() -> Vec<Case> {
    let mut cases = Vec::new();
    for (name, set) in [("set A", set_a()), ("set A on tape", tape(set_a()))] {
        for file in File::ALL {
            for kind in File::ALL {
                let expected = match file == kind {
                    true => Answer::Formed,
                    false => refused(4, kind, first(), 1),
                };
                cases.push(form(name, set.clone(), file, kind, expected));
            }
        }
    }
    cases
}

/// Header lines alone, and a disc file of no byte, are of each kind.
fn without_lines() -> Vec<Case> {
    let empty = Set::default();
    let none = Set { medium: Medium::Tape, ..empty.clone() };
    let end_alone = none.clone().each(|set, file| set.add(file, end()));
    let mut cases = Vec::new();
    for (name, set) in [
        ("headers only", headers_only()),
        ("headers only on tape", tape(headers_only())),
        ("no byte", empty),
        ("an EOF record alone", end_alone),
    ] {
        for kind in File::ALL {
            cases.push(form(name, set.clone(), File::R, kind, Answer::Formed));
        }
    }
    for kind in File::ALL {
        let expected = refused(29, kind, 1, 0);
        cases.push(form("no byte on tape", none.clone(), File::R, kind, expected));
    }
    cases
}

/// 20 comes before the file, also where fewer bits would be a kind.
fn other_kinds() -> Vec<Case> {
    let letters = b"rsxHQCE 1".map(u64::from);
    let on_tape = [0xD9, 0xE2, 0xE7];
    let wide = [8, 16, 32, 63].into_iter().flat_map(|bit| File::ALL.map(|f| f.kind() + (1 << bit)));
    let kinds = [0, 1, 2, 3, u64::MAX].into_iter().chain(letters).chain(on_tape).chain(wide);
    let kinds: Vec<u64> = kinds.collect();
    let mut cases = Vec::new();
    for (name, set) in [
        ("set A", set_a()),
        ("81 bytes", set_a().cut(File::R, 81)),
        ("no byte on tape", tape(set_a()).cut(File::R, 0)),
    ] {
        for &kind in &kinds {
            let question = Question::Form { file: File::R, kind };
            let name = format!("form: {name}, kind {kind}");
            cases.push(ask(name, set.clone(), question, placeless(20)));
        }
    }
    cases
}
