//! Records of one line, of some lines, and one record of all lines.

use super::shuffled::mixed;
use super::{below_header, last, own, record, SEED};
use small_sets::{receiver, relation, shot, File, Line, Random, Set};

/// One record, each of whose lines leads to one receiver.
fn one(receivers: u32, in_turn: impl IntoIterator<Item = u32>) -> Set {
    let line = |(channel, n)| relation().channels(channel, channel).receivers(n, n);
    below_header((0..receivers).map(receiver), [shot(501)], (1..).zip(in_turn).map(line))
}

/// Channel n leads to the n-th receiver from the end.
pub fn one_backwards(lines: usize) -> Set {
    one(own(lines), (0..own(lines)).rev())
}

pub fn one_shuffled(lines: usize) -> Set {
    one(own(lines), mixed(&mut Random::new(SEED), 0..own(lines)))
}

/// The last line covers what the first of the last so many lines does.
pub fn covered_again(set: Set, lines: u32) -> Set {
    let first = set.line(File::X, set.lines(File::X) - lines as usize + 1);
    last(set, File::X, |Line(mut line)| {
        line[63..79].copy_from_slice(&first.0[63..79]);
        Line(line)
    })
}

/// Records of so many lines that cover each receiver, and all of them the same number.
pub fn of(lines: usize, size: u32) -> Set {
    let mut random = Random::new(SEED);
    // There are as many records as receivers of a line.
    let many = own(lines) / size;
    let x = (0..many).flat_map(|n| {
        let parts = (0..).zip(mixed(&mut random, 0..size));
        let line = move |(at, part): (u32, u32)| {
            let line = record(n).channels(many * at + 1, many * at + many);
            line.receivers(many * part, many * part + many - 1)
        };
        parts.map(line)
    });
    below_header((0..many * size).map(receiver), (0..many).map(shot), x)
}

/// A hundred tapes of a hundred records at most.
pub fn many(lines: usize) -> Set {
    let most = own(lines);
    let line = |n: u32| {
        let line = record(n / 100).tape(&format!("1000{:02}", n % 100)).source(n);
        line.channels(1, 1).receivers(n, n)
    };
    below_header((0..most).map(receiver), (0..most).map(shot), (0..most).map(line))
}

pub fn many_again(lines: usize) -> Set {
    last(many(lines), File::X, |line| line.tape("100000").record(0))
}
