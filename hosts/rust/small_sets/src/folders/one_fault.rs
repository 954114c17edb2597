//! A set for each refusal number of the cross-check.

use crate::line::{header, header_with, receiver, relation, shot, Line};
use crate::place::{below, first, header_line};
use crate::table::code_tables::with;
use crate::File::{R, S, X};
use crate::{set_a, Set};

/// A change to set A that gives a refusal number.
pub struct OneFault {
    pub number: u8,
    change: fn(Set) -> Set,
}

impl OneFault {
    pub fn name(&self) -> String {
        format!("refusal_{:02}", self.number)
    }

    pub fn set(&self) -> Set {
        (self.change)(set_a())
    }
}

pub fn one_fault() -> Vec<OneFault> {
    [form(), headers(), points(), relations(), tables()].into_iter().flatten().collect()
}

fn fault(number: u8, change: fn(Set) -> Set) -> OneFault {
    OneFault { number, change }
}

/// R goes on, in order, to one line too many.
pub fn ten_thousand_lines(set: Set) -> Set {
    let missing = 10_000 - set.lines(R);
    set.add_all(R, (104..).map(receiver).take(missing))
}

fn form() -> Vec<OneFault> {
    vec![
        fault(1, |set| set.over(S, 81)),
        fault(2, ten_thousand_lines),
        fault(3, |set| set.byte(X, first(), 82, b' ')),
        fault(4, |set| set.add(S, header(20))),
        fault(5, |set| set.put(R, below(2), 66, "  0.00")),
        fault(6, |set| set.edit(X, first(), |x| x.channels(3, 1))),
    ]
}

fn headers() -> Vec<OneFault> {
    vec![
        fault(7, |set| set.each(|set, file| set.put(file, 3, 4, "1"))),
        fault(8, |set| set.each(|set, file| set.put(file, header_line(18), 33, ";UTM"))),
        fault(9, |set| set.remove(X, header_line(20))),
    ]
}

fn points() -> Vec<OneFault> {
    vec![
        fault(10, |set| set.add(R, receiver(103).index(" "))),
        fault(11, |set| set.add(S, shot(502).day(112).time("235959"))),
        fault(12, |set| set.add(S, shot(502)).add(S, shot(501).index(" "))),
    ]
}

/// Record 12, of a shot.
fn second(point: u32) -> Line {
    relation().record(12).source(point)
}

/// Record 11 goes on: a receiver of its own, then one that set A's line covers.
fn two_lines() -> [Line; 2] {
    let one = |channel, point| relation().channels(channel, channel).receivers(point, point);
    [one(4, 104), one(5, 102)]
}

fn relations() -> Vec<OneFault> {
    vec![
        fault(13, |set| set.edit(X, first(), |x| x.source_name("l1"))),
        fault(14, |set| set.insert(S, first(), shot(502)).add(X, second(502))),
        fault(15, |set| set.insert(S, first(), shot(500))),
        fault(16, |set| set.add(X, second(501)).add(X, relation())),
        fault(17, |set| set.add(R, receiver(104)).add(X, two_lines()[0].channels(3, 3))),
        fault(18, |set| set.remove(R, below(2))),
        fault(19, |set| set.add(R, receiver(104)).add_all(X, two_lines())),
    ]
}

fn tables() -> Vec<OneFault> {
    vec![
        fault(24, |set| with(set, &[header_with(620, "G2"), header_with(610, "G2")])),
        fault(25, |set| set.edit(X, first(), |x| x.instrument("2"))),
    ]
}
