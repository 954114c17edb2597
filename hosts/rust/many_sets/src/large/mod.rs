//! Sets near the limits: up to 9,999 lines a file.

mod headers;
mod killed;
mod receivers;
mod records;
mod seeded;
mod shots;
mod shuffled;
mod tables;

use crate::backwards;
pub use seeded::seeded;
use small_sets::place::last_header;
use small_sets::{headers_only, receiver, relation, shot, File, Line, Random, Set};

/// A name, and what makes the set; some sets are made of so many lines a file at most.
pub type Large = (&'static str, fn(usize) -> Set);

/// The most lines that a file may have.
pub const FULL: usize = 9_999;

/// Of what is made by chance here.
const SEED: u64 = 0x5eed;

/// Surveys by the lines that each file has.
pub const SEEDED: [Large; 3] = [
    ("100 lines a file", |_| seeded(&mut Random::new(SEED), 100)),
    ("1,000 lines a file", |_| seeded(&mut Random::new(SEED), 1_000)),
    ("9,999 lines a file", |_| seeded(&mut Random::new(SEED), FULL)),
];

/// Sets that are no more than large.
pub const COMMON: [Large; 2] = [
    ("9,954 receivers, 1,995 shots, 9,975 lines", |_| survey(1_995)),
    ("9,975 receivers, shots and lines", |_| two_million_traces()),
];

/// The first of these on tape, with a shot less, since EOF takes a line.
pub const ON_TAPE: [Large; 1] = [("9,954 receivers, 1,994 shots, 9,970 lines, on tape", |_| {
    survey(1_994).on_tape().expect("characters of a tape")
})];

/// Sets that are made to take long, of any number of lines, accepted or refused as late
/// as can be.
pub const HOSTILE: [Large; 39] = [
    ("one record backwards", records::one_backwards),
    ("one record backwards, the last line covers the first receiver", |lines| {
        records::covered_again(records::one_backwards(lines), own(lines))
    }),
    ("one record shuffled", records::one_shuffled),
    ("one record shuffled, the last line covers the first receiver", |lines| {
        records::covered_again(records::one_shuffled(lines), own(lines))
    }),
    ("records of 9 lines", |lines| records::of(lines, 9)),
    ("records of 9 lines, the last covers the first receivers", |lines| {
        records::covered_again(records::of(lines, 9), 9)
    }),
    ("records of 128 lines", |lines| records::of(lines, 128)),
    ("records of 128 lines, the last covers the first receivers", |lines| {
        records::covered_again(records::of(lines, 128), 128)
    }),
    ("records of 129 lines", |lines| records::of(lines, 129)),
    ("records of 129 lines, the last covers the first receivers", |lines| {
        records::covered_again(records::of(lines, 129), 129)
    }),
    ("records of 129 lines, laid out backwards", |lines| backwards::set(records::of(lines, 129))),
    ("a record for each line, tapes alike", records::many),
    ("a record for each line, the last is the first", records::many_again),
    ("nine indices, one of them covered", receivers::nine_indices),
    ("nine indices in turn", receivers::indices_in_turn),
    ("nine indices in turn, the last receiver lacks", receivers::index_lacks),
    ("markers before the one receiver and the one shot", receivers::markers),
    ("names alike but in their last column", receivers::names_alike),
    ("names alike, the last line names another", receivers::other_name),
    ("a name for each receiver", shuffled::names),
    ("a name for each receiver, the last lacks", shuffled::name_lacks),
    ("all shuffled", shuffled::all),
    ("all shuffled, the last shot is the first", shuffled::shot_again),
    ("all shuffled, the last record is the first", shuffled::record_again),
    ("all shuffled, the last receiver lacks", shuffled::receiver_lacks),
    ("shots backwards", shots::backwards),
    ("shots backwards, the last is the first", shots::again),
    ("shots backwards, the last is not named", shots::not_named),
    ("shots backwards, the last line names none", shots::no_shot),
    ("header lines alone", headers::alone),
    ("header lines alone, the last column of X differs", headers::last_column),
    ("codes named last in a long header", tables::named_last),
    ("codes named last in a long header, the last is the first", tables::named_again),
    ("codes named last in a long header, the last instrument is not", tables::not_named),
    ("nine indices in turn, half of them killed", |lines| {
        killed::half(receivers::indices_in_turn(lines))
    }),
    ("records of 129 lines, half of the receivers killed", |lines| {
        killed::half(records::of(lines, 129))
    }),
    ("all shuffled, half of the receivers killed", |lines| killed::half(shuffled::all(lines))),
    ("all shots killed but the last", killed::shots),
    ("all shots killed but the last, the last line names another", killed::named),
];

/// Sets of nearly a hundred million traces, the most there can be at one channel
/// a receiver.
pub const WIDEST: [Large; 3] = [
    ("every receiver in every record", receivers::all),
    ("every receiver in every record, the last lacks", receivers::last_lacks),
    ("every receiver in every record, half of them killed", |lines| {
        killed::half(receivers::all(lines))
    }),
];

/// The sets whose check is measured.
pub fn measured() -> impl Iterator<Item = Large> {
    SEEDED.into_iter().chain(COMMON).chain(ON_TAPE).chain(HOSTILE).chain(WIDEST)
}

/// The lines below set A's header in a file of so many lines.
fn own(lines: usize) -> u32 {
    (lines - last_header()) as u32
}

/// The same in a file of 9,999 lines.
pub fn most() -> u32 {
    own(FULL)
}

/// Set A's header, and below it what stands in the lines of each file.
fn below_header(
    r: impl IntoIterator<Item = Line>,
    s: impl IntoIterator<Item = Line>,
    x: impl IntoIterator<Item = Line>,
) -> Set {
    headers_only().add_all(File::R, r).add_all(File::S, s).add_all(File::X, x)
}

/// The last line of a file changed.
fn last(set: Set, file: File, change: impl FnOnce(Line) -> Line) -> Set {
    let line = set.lines(file);
    set.edit(file, line, change)
}

/// A record of its own for each shot, on channels from 1.
fn record(n: u32) -> Line {
    relation().source(n).record(n)
}

/// Receivers, shots and records, as many as there can be; record n covers 200 receivers
/// from its own on: 1,995,000 traces.
pub fn two_million_traces() -> Set {
    let most = most();
    let lines = |n: u32| {
        let from = n.min(most - 200);
        record(n).channels(1, 200).receivers(from, from + 199)
    };
    below_header((0..most).map(receiver), (0..most).map(shot), (0..most).map(lines))
}

/// Six lines of 1,659 receivers, and at most 1,995 shots that roll along them; each has a
/// record of 200 channels on each of five lines.
pub fn survey(shots: u32) -> Set {
    const LINES: [&str; 6] = ["LINE 11", "LINE 12", "LINE 13", "LINE 14", "LINE 15", "LINE 16"];
    let receivers =
        LINES.into_iter().flat_map(|line| (1..=1_659).map(move |n| receiver(n).name(line)));
    let relations = (0..shots).flat_map(|shot: u32| {
        let lines = &LINES[shot as usize % 2..];
        (0..5).zip(lines).map(move |(part, line)| {
            let from = 1 + shot * 1_459 / 1_994;
            let line = record(shot).receiver_name(line).receivers(from, from + 199);
            line.channels(200 * part + 1, 200 * part + 200)
        })
    });
    below_header(receivers, (0..shots).map(shot), relations)
}
