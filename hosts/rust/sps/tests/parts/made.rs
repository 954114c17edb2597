//! Sets made from a seed.

use crate::hold::{kinds, parts};
use crate::tally::Tally;
use many_sets::faults::damage_more;
use many_sets::media::plain;
use many_sets::run::{random, turns};
use many_sets::sound::sound;
use small_sets::{Random, Set};

/// Sets as they are made, then with one change to three, which may be in several files.
fn hold(salt: u64, sets: u64, make: fn(&mut Random) -> Set) {
    let (mut random, mut tally, mut refused) = (random(salt), Tally::default(), 0);
    for turn in 0..turns(sets) {
        let sound = make(&mut random);
        let (set, ways) = damage_more(&mut random, sound, turn as usize % 4);
        tally.count(parts(&set, &ways));
        refused += kinds(&set, &ways);
    }
    tally.holds(turns(sets / 50));
    assert!(refused > turns(2 * sets), "{refused} files are refused as another kind");
}

#[test]
fn on_disc() {
    hold(85, 12_000, |random| sound(random).set);
}

#[test]
fn on_tape() {
    hold(86, 8_000, |random| plain(random).on_tape().expect("characters of a tape"));
}
