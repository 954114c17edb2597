//! Sets made from a seed, sound and with one thing changed, on disc and on tape.

use crate::hold::hold_all;
use crate::tally::Tally;
use many_sets::backwards;
use many_sets::faults::damage;
use many_sets::media::plain;
use many_sets::run::{random, turns};
use many_sets::sound::sound;
use small_sets::{Random, Set};

fn run(salt: u64, sets: u64, make: impl Fn(&mut Random) -> Set) -> Tally {
    let (mut random, mut tally) = (random(salt), Tally::default());
    for _ in 0..turns(sets) {
        tally.count(&hold_all(&make(&mut random)));
    }
    tally
}

#[test]
fn sound_sets() {
    let tally = run(150, 400, |random| sound(random).set);
    assert_eq!(tally.refused, 0);
    tally.holds(500);
}

#[test]
fn laid_out_backwards() {
    let tally = run(151, 200, |random| backwards::set(sound(random).set));
    assert_eq!(tally.refused, 0);
    tally.holds(200);
}

#[test]
fn damaged_sets() {
    let tally = run(152, 600, |random| {
        let set = sound(random).set;
        damage(random, set).0
    });
    assert!(tally.accepted > 100 && tally.refused > 300, "{tally:?}");
    tally.holds(200);
}

/// Some are in the order of the disc, and refused for it.
#[test]
fn tapes() {
    let tally = run(153, 300, |random| plain(random).on_tape().expect("characters of a tape"));
    assert!(tally.accepted > 100 && tally.refused > 5, "{tally:?}");
    tally.holds(200);
}

#[test]
fn damaged_tapes() {
    let tally = run(154, 500, |random| {
        let tape = plain(random).on_tape().expect("characters of a tape");
        damage(random, tape).0
    });
    assert!(tally.accepted > 10 && tally.refused > 200, "{tally:?}");
    tally.holds(10);
}
