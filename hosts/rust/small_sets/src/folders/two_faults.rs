//! Sets with two faults, of numbers that are neighbours in the order of checks:
//! the one that is looked for first is given.

use super::one_fault::ten_thousand_lines;
use crate::line::{header_with, receiver, relation, shot};
use crate::place::{below, first, header_line, last_header};
use crate::table::code_tables::with;
use crate::File::{R, S, X};
use crate::{set_a, Set};

/// Two changes to a sound set, in the order in which they are looked for.
pub struct TwoFaults {
    pub name: &'static str,
    pub numbers: [u8; 2],
    pub sound: fn() -> Set,
    pub changes: [fn(Set) -> Set; 2],
}

impl TwoFaults {
    pub fn set(&self) -> Set {
        let [first, second] = self.changes;
        second(first((self.sound)()))
    }
}

pub fn two_faults() -> Vec<TwoFaults> {
    [form(), files(), headers(), points(), relations()].into_iter().flatten().collect()
}

fn both(
    name: &'static str,
    numbers: [u8; 2],
    sound: fn() -> Set,
    changes: [fn(Set) -> Set; 2],
) -> TwoFaults {
    TwoFaults { name, numbers, sound, changes }
}

/// 1 to 6 of one file, from 3 on in one line.
fn form() -> Vec<TwoFaults> {
    vec![
        both("faults_01_02", [1, 2], set_a, [|a| a.over(R, 1), ten_thousand_lines]),
        both("faults_02_03", [2, 3], set_a, [ten_thousand_lines, |a| a.byte(R, 1, 1, 0)]),
        both(
            "faults_03_04",
            [3, 4],
            set_a,
            [|a| a.byte(R, below(2), 81, b' '), |a| a.put(R, below(2), 1, "Q")],
        ),
        both(
            "faults_04_05",
            [4, 5],
            set_a,
            [|a| a.put(R, below(2), 1, "Q"), |a| a.put(R, below(2), 2, " ")],
        ),
        both(
            "faults_05_06",
            [5, 6],
            set_a,
            [|a| a.put(X, first(), 80, "0"), |a| a.edit(X, first(), |x| x.channels(9, 3))],
        ),
    ]
}

/// The form of R before that of S, and of S before that of X.
fn files() -> Vec<TwoFaults> {
    vec![
        both(
            "faults_05_of_r_01_of_s",
            [5, 1],
            set_a,
            [|a| a.put(R, below(3), 80, "x"), |a| a.over(S, 1)],
        ),
        both(
            "faults_05_of_s_01_of_x",
            [5, 1],
            set_a,
            [|a| a.put(S, first(), 80, "x"), |a| a.over(X, 1)],
        ),
    ]
}

/// The form of X, 7, 8, 9 of S, 9 of X, 24, 25, then 10.
fn headers() -> Vec<TwoFaults> {
    let no_projection = |a: Set| a.each(|set, file| set.put(file, header_line(18), 33, "N/A "));
    let no_h20 = |a: Set| a.each(|set, file| set.remove(file, header_line(20)));
    let again = |a: Set| with(a, &[header_with(690, "G1")]);
    let unnamed = |a: Set| {
        let last = a.lines(X);
        a.edit(X, last, |x| x.instrument("2"))
    };
    vec![
        both("faults_06_07", [6, 7], set_a, [|a| a.edit(X, first(), |x| x.channels(1, 4)), no_h20]),
        both("faults_07_08", [7, 8], set_a, [no_h20, no_projection]),
        both("faults_08_09", [8, 9], set_a, [no_projection, |a| a.put(S, 1, 5, "a")]),
        both(
            "faults_09_of_s_09_of_x",
            [9, 9],
            set_a,
            [|a| a.put(S, last_header(), 80, "a"), |a| a.put(X, 1, 5, "a")],
        ),
        both("faults_09_24", [9, 24], set_a, [|a| a.put(X, 1, 5, "a"), again]),
        both("faults_24_25", [24, 25], set_a, [again, unnamed]),
        both("faults_25_10", [25, 10], set_a, [unnamed, |a| a.edit(R, below(3), |r| r.point(1))]),
    ]
}

/// Set A with shot 502 and its relation line.
fn two_shots() -> Set {
    set_a().add(S, shot(502)).add(X, relation().source(502).record(12))
}

/// 10, then 11 and 12 in one line, then 13.
fn points() -> Vec<TwoFaults> {
    let early = |a: Set| a.edit(S, below(2), |s| s.time("000000"));
    let repeated = |a: Set| a.edit(S, below(2), |s| s.point(501));
    let unknown = |a: Set| a.edit(X, first(), |x| x.source(900));
    vec![
        both("faults_10_11", [10, 11], two_shots, [|a| a.edit(R, below(3), |r| r.point(1)), early]),
        both("faults_11_12", [11, 12], two_shots, [early, repeated]),
        both("faults_12_13", [12, 13], two_shots, [repeated, unknown]),
    ]
}

/// Two shots, and a third relation line, of shot 502.
fn three_relations() -> Set {
    two_shots().add(X, relation().source(502).record(13))
}

/// Set A with receivers 104 and 105, which a second line of its record covers.
fn five_receivers() -> Set {
    let more = relation().channels(4, 5).receivers(104, 105);
    set_a().add_all(R, [104, 105].map(receiver)).add(X, more)
}

/// 13 above 14; from 14 on in one line; 15 last.
fn relations() -> Vec<TwoFaults> {
    let unknown = |a: Set| a.edit(X, first(), |x| x.source(900));
    let back = |a: Set| a.edit(X, below(3), |x| x.source(501));
    let returning = |a: Set| a.edit(X, below(3), |x| x.record(11));
    let differing = |a: Set| a.edit(X, below(2), |x| x.record_increment("2"));
    let overlapping = |a: Set| a.edit(X, below(2), |x| x.channels(3, 4));
    let missing = |a: Set| a.remove(R, below(4));
    let covered = |a: Set| a.edit(X, below(2), |x| x.receivers(103, 104));
    vec![
        both("faults_13_14", [13, 14], three_relations, [unknown, back]),
        both("faults_14_16", [14, 16], three_relations, [back, returning]),
        both("faults_16_17", [16, 17], five_receivers, [differing, overlapping]),
        both("faults_17_18", [17, 18], five_receivers, [overlapping, missing]),
        both("faults_18_19", [18, 19], five_receivers, [missing, covered]),
        both("faults_19_15", [19, 15], five_receivers, [covered, |a| a.add(S, shot(502))]),
    ]
}
