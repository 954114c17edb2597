//! Shots whose numbers descend while their times do not.

use super::{below_header, last, own, record};
use small_sets::{receiver, shot, File, Set};

pub fn backwards(lines: usize) -> Set {
    let line = |n| record(n).channels(1, 3).receivers(101, 103);
    let (receivers, numbers) = ([101, 102, 103].map(receiver), 0..own(lines));
    below_header(receivers, numbers.clone().rev().map(shot), numbers.rev().map(line))
}

pub fn again(lines: usize) -> Set {
    last(backwards(lines), File::S, |line| line.point(own(lines) - 1))
}

pub fn not_named(lines: usize) -> Set {
    last(backwards(lines), File::X, |line| line.source(1))
}

pub fn no_shot(lines: usize) -> Set {
    last(backwards(lines), File::X, |line| line.source(own(lines)))
}
