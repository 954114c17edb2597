//! Slices that are lent to a call.

use std::fmt::Debug;

/// Lends so many places, all alike, to a call; returns its answer and the places
/// afterwards. Those just before and behind are not lent, and stay.
pub fn lent<T: Copy + Debug + PartialEq, A>(
    stays: T,
    length: usize,
    call: impl FnOnce(&mut [T]) -> A,
) -> (A, Vec<T>) {
    let mut places = vec![stays; length + 2];
    let answer = call(&mut places[1..=length]);
    stay(stays, &[places[0], places[length + 1]]);
    (answer, places[1..=length].to_vec())
}

/// Holds that places are as they were.
pub fn stay<T: Copy + Debug + PartialEq>(stays: T, places: &[T]) {
    assert!(places.iter().all(|place| *place == stays), "{stays:?} becomes {places:?}");
}
