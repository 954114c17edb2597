//! Made sets that the naive reader refuses, and what is said of each.

use crate::{folder, said, spswhy, write, NAMES};
use many_sets::faults::damage;
use many_sets::run::{random, turns};
use many_sets::{media, sound::sound};
use small_sets::{File, Medium, Random, Set};
use std::collections::BTreeMap;
use std::fs;
use std::path::Path;

/// A set with the naive reader's refusal of it.
pub struct Refused {
    pub set: Set,
    pub number: u8,
    pub file: File,
    pub line: u32,
    pub column: u8,
}

pub fn name(file: File) -> &'static str {
    NAMES[file as usize - 1]
}

impl Refused {
    pub fn of(set: Set) -> Option<Refused> {
        let refusal = naive::check(medium(&set), set.files()).err()?;
        let file = File::ALL[refusal.file? as usize];
        let naive::Refusal { number, line, column, .. } = refusal;
        Some(Refused { set, number, file, line, column })
    }

    pub fn name(&self) -> &'static str {
        name(self.file)
    }
}

/// The medium as the naive reader names it.
pub fn medium(set: &Set) -> naive::Medium {
    naive::medium(set.medium as u64).expect("a medium")
}

/// A set with a fault of the disc, at times its tape, at times with a fault of a tape.
fn damaged(random: &mut Random) -> Set {
    let set = match random.below(3) {
        0 => media::plain(random),
        _ => sound(random).set,
    };
    let (set, _) = damage(random, set);
    match (random.below(3), set.on_tape()) {
        (0, Some(tape)) => damage(random, tape).0,
        (1, Some(tape)) => tape,
        _ => set,
    }
}

/// How many sets of a number are taken at most, and of 2, whose sets are large.
const MOST: usize = 40;
const MOST_OF_2: usize = 2;

/// Sets that are refused, so many of each number at most.
pub fn made() -> Vec<Refused> {
    let mut random = random(221);
    let mut taken = BTreeMap::new();
    let sets = (0..turns(5_000)).map(|_| damaged(&mut random));
    let refused = sets.filter_map(Refused::of).filter(|refused| {
        let turn = taken.entry(refused.number).or_insert(0);
        *turn += 1;
        *turn <= if refused.number == 2 { MOST_OF_2 } else { MOST }
    });
    refused.collect()
}

/// What is said of each on standard error, in one run a medium, in folders below one of a name.
pub fn said_of(name: &str, refused: &[Refused]) -> Vec<String> {
    let above = folder(name);
    for (at, refused) in refused.iter().enumerate() {
        fs::create_dir(above.join(at.to_string())).expect("a folder");
        write(&above.join(at.to_string()), &refused.set);
    }
    let mut messages = vec![String::new(); refused.len()];
    for (medium, option) in [(Medium::Disc, "--"), (Medium::Tape, "--tape")] {
        let of_medium = (0..refused.len()).filter(|at| refused[*at].set.medium == medium);
        for (at, message) in messages_of(&above, option, &of_medium.collect::<Vec<usize>>()) {
            messages[at] += &message;
        }
    }
    messages
}

/// The lines of standard error by the folders that they are said of.
fn messages_of(above: &Path, option: &str, folders: &[usize]) -> Vec<(usize, String)> {
    let names: Vec<String> = folders.iter().map(usize::to_string).collect();
    let words: Vec<&str> = [option].into_iter().chain(names.iter().map(String::as_str)).collect();
    let (status, lines, reasons) = said(spswhy(above, &words));
    assert_eq!((status, lines.lines().count()), (Some(1), folders.len()));
    let mut messages: Vec<(usize, String)> = Vec::new();
    let mut reasons: Vec<&str> = reasons.lines().collect();
    let summary = format!("{0} folders: 0 accepted, {0} refused, 0 without verdict", folders.len());
    assert_eq!(reasons.pop(), Some(&*summary));
    for line in reasons {
        if line.contains(": refused with ") {
            let (folder, _) = line.split_once('/').expect("a folder");
            messages.push((folder.parse().expect("a number"), String::new()));
        }
        let (_, message) = messages.last_mut().expect("a first line");
        *message += &format!("{line}\n");
    }
    messages
}
