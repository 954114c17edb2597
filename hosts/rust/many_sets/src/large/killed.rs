//! Killed receivers among others, and killed shots around the one that is named.

use super::{below_header, last, own, SEED};
use small_sets::place::first;
use small_sets::{receiver, relation, shot, File, Random, Set};

/// A set with half of its receivers killed, by chance.
pub fn half(set: Set) -> Set {
    let mut random = Random::new(SEED);
    let lines: Vec<usize> =
        (first()..=set.lines(File::R)).filter(|_| random.below(2) == 0).collect();
    lines.into_iter().fold(set, |set, line| set.edit(File::R, line, |r| r.code("KL")))
}

/// All shots but the last are killed; each record is of the last.
pub fn shots(lines: usize) -> Set {
    let most = own(lines);
    let killed = (0..most - 1).map(|n| shot(n).code("KL"));
    let line = |n| relation().record(n).source(most - 1);
    let receivers = [101, 102, 103].map(receiver);
    below_header(receivers, killed.chain([shot(most - 1)]), (0..most).map(line))
}

/// The last line names the shot before the last.
pub fn named(lines: usize) -> Set {
    last(shots(lines), File::X, |line| line.source(own(lines) - 2))
}
