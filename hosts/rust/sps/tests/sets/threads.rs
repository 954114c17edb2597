//! Calls at the same time, on the same files and on different ones.

use crate::answers::{naive, proved};
use many_sets::faults::damage;
use many_sets::media::plain;
use many_sets::run::random;
use many_sets::sound::sound;
use std::thread;

#[test]
fn at_the_same_time() {
    let mut random = random(36);
    let sets: Vec<_> = (0..400)
        .map(|turn| {
            let set = match turn % 4 {
                0 => plain(&mut random).on_tape().expect("characters of a tape"),
                _ => sound(&mut random).set,
            };
            match turn % 2 {
                0 => set,
                _ => damage(&mut random, set).0,
            }
        })
        .collect();
    let expected: Vec<_> = sets.iter().map(naive).collect();
    thread::scope(|scope| {
        for from in 0..4 {
            let (sets, expected) = (&sets, &expected);
            scope.spawn(move || {
                for at in (0..sets.len()).map(|at| (at * (from / 2 + 1)) % sets.len()) {
                    assert_eq!(proved(&sets[at]), expected[at], "set {at}");
                }
            });
        }
    });
}
