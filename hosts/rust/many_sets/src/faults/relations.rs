//! Relation lines that stay in form, and name or cover something else.

use super::values::{number, put};
use super::{headers_of, own_line, own_lines};
use crate::backwards;
use small_sets::File::{R, S, X};
use small_sets::{Line, Random, Set};
use std::cmp::Ordering;

const FROM_CHANNEL: (usize, usize) = (39, 42);
const TO_CHANNEL: (usize, usize) = (43, 46);
const FROM_RECEIVER: (usize, usize) = (64, 71);
const TO_RECEIVER: (usize, usize) = (72, 79);

/// The channels of a line and its components, where it has them.
fn channels(line: &Line) -> Option<(u32, u32, u32)> {
    let components = number(line, (47, 47)).unwrap_or(1);
    Some((number(line, FROM_CHANNEL)?, number(line, TO_CHANNEL)?, components))
}

/// One receiver more or less at the end, or one more before the first.
pub fn wider(random: &mut Random, set: Set) -> Set {
    let Some(at) = own_line(random, &set, X) else { return set };
    let line = set.line(X, at);
    match widened(random, line) {
        Some(line) => set.edit(X, at, |_| line),
        None => set,
    }
}

fn widened(random: &mut Random, line: Line) -> Option<Line> {
    let (_, to, components) = channels(&line)?;
    let (first, last) = (number(&line, FROM_RECEIVER)?, number(&line, TO_RECEIVER)?);
    let on = match first.cmp(&last) {
        Ordering::Less => 1,
        Ordering::Greater => -1,
        // One receiver is counted either way.
        Ordering::Equal => random.pick(&[1, -1]),
    };
    let moved = |receiver: u32, by| receiver.checked_add_signed(by);
    Some(match random.below(3) {
        0 => put(put(line, TO_CHANNEL, to + components), TO_RECEIVER, moved(last, on)?),
        1 => put(put(line, TO_CHANNEL, to + components), FROM_RECEIVER, moved(first, -on)?),
        _ => {
            put(put(line, TO_CHANNEL, to.checked_sub(components)?), TO_RECEIVER, moved(last, -on)?)
        }
    })
}

/// A relation line again at the end of its record, on channels of its own; at
/// times with its first receiver only, at times laid out backwards.
pub fn again(random: &mut Random, set: Set) -> Set {
    let Some(at) = own_line(random, &set, X) else { return set };
    let line = set.line(X, at);
    let tape_and_record = |at| set.line(X, at).0[1..11].to_vec();
    let mut last = at;
    while last < set.lines(X) && tape_and_record(last + 1) == tape_and_record(at) {
        last += 1;
    }
    let (Some((from, to, components)), Some((_, before, _))) =
        (channels(&line), channels(&set.line(X, last)))
    else {
        return set;
    };
    let (to, to_receiver) = match random.below(2) {
        0 => (to, number(&line, TO_RECEIVER)),
        _ => (from + components.saturating_sub(1), number(&line, FROM_RECEIVER)),
    };
    let (Some(length), Some(to_receiver)) = (to.checked_sub(from), to_receiver) else { return set };
    let line = put(put(line, FROM_CHANNEL, before + 1), TO_CHANNEL, before + 1 + length);
    let line = put(line, TO_RECEIVER, to_receiver);
    let line = if random.below(2) == 0 { line } else { backwards::line(line) };
    set.insert(X, last + 1, line)
}

/// The tape and record of any line above, or of the line just above.
pub fn record(random: &mut Random, set: Set) -> Set {
    let headers = headers_of(&set, X);
    let Some(at) = own_line(random, &set, X).filter(|&at| at > headers + 1) else { return set };
    let from = match random.below(2) {
        0 => at - 1,
        _ => headers + 1 + random.below(at - headers - 1),
    };
    let Line(above) = set.line(X, from);
    set.edit(X, at, |mut line| {
        line.0[1..11].copy_from_slice(&above[1..11]);
        line
    })
}

/// The source becomes any shot, or the receivers one receiver.
pub fn named(random: &mut Random, set: Set) -> Set {
    let file = random.pick(&[R, S]);
    let (Some(at), Some(point)) = (own_line(random, &set, X), own_line(random, &set, file)) else {
        return set;
    };
    let Line(point) = set.line(file, point);
    set.edit(X, at, |mut line| {
        if file == S {
            return with_source(line, &point);
        }
        line.0[47..63].copy_from_slice(&point[1..17]);
        line.0[63..71].copy_from_slice(&point[17..25]);
        line.0[71..79].copy_from_slice(&point[17..25]);
        line.0[79] = point[25];
        match channels(&line) {
            Some((from, _, components)) => {
                put(line, TO_CHANNEL, from + components.saturating_sub(1))
            }
            None => line,
        }
    })
}

/// A relation line with the name, number and index of a line of S.
fn with_source(mut line: Line, shot: &[u8; 80]) -> Line {
    line.0[13..38].copy_from_slice(&shot[1..26]);
    line
}

/// The source becomes a killed shot; where there is none, any shot is named and killed.
pub fn killed(random: &mut Random, set: Set) -> Set {
    let own = own_lines(&set, S);
    let dead: Vec<usize> = own.filter(|&at| set.line(S, at).0[26..28] == *b"KL").collect();
    let shot = match dead.is_empty() {
        true => own_line(random, &set, S),
        false => Some(random.pick(&dead)),
    };
    let (Some(at), Some(shot)) = (own_line(random, &set, X), shot) else { return set };
    let set = set.edit(S, shot, |line| line.code("KL"));
    let Line(shot) = set.line(S, shot);
    set.edit(X, at, |line| with_source(line, &shot))
}

/// Another increment.
fn other_increment(random: &mut Random, line: Line) -> Line {
    line.increment(random.pick(&["2", "3", "7"]))
}

/// The ends of the channels crossed, at times with another increment.
pub fn crossed(random: &mut Random, set: Set) -> Set {
    let Some(at) = own_line(random, &set, X) else { return set };
    set.edit(X, at, |mut line| {
        line.0[38..46].rotate_left(4);
        match random.below(2) {
            0 => other_increment(random, line),
            _ => line,
        }
    })
}

/// A line laid out backwards, which is no fault; at times with another increment or another
/// first receiver.
pub fn turned(random: &mut Random, set: Set) -> Set {
    let Some(at) = own_line(random, &set, X) else { return set };
    set.edit(X, at, |line| {
        let line = backwards::line(line);
        match (random.below(4), number(&line, FROM_RECEIVER)) {
            (0, _) => other_increment(random, line),
            (1, Some(first)) => put(line, FROM_RECEIVER, first + 1),
            _ => line,
        }
    })
}
