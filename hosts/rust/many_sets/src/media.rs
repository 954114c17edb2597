//! Sets for both media: sound ones, and receivers in the order of a medium.

use crate::faults::{number, own_lines};
use crate::sound;
use small_sets::{tape, File, Line, Medium, Random, Set};

/// Line name, point number and index, as a medium puts them in order.
type Key = ([u8; 16], Option<u32>, u32);

fn key(medium: Medium, line: &Line) -> Key {
    let name = std::array::from_fn(|at| match (medium, line.0[at + 1]) {
        (Medium::Disc, character) => character,
        (Medium::Tape, character) => tape::byte_of(character).unwrap_or(0),
    });
    (name, number(line, (18, 25)), number(line, (26, 26)).unwrap_or(1))
}

/// The receivers of a disc set: their lines, and their texts.
fn receivers(set: &Set) -> Vec<(usize, Line)> {
    let lines = own_lines(set, File::R).map(|line| (line, set.line(File::R, line)));
    lines.filter(|(_, text)| text.0[26..28] != *b"PM").collect()
}

/// The first receiver of a disc set that a medium does not put above the one before it.
pub fn not_above(medium: Medium, set: &Set) -> Option<usize> {
    let receivers = receivers(set);
    let late = |two: &&[(usize, Line)]| key(medium, &two[1].1) <= key(medium, &two[0].1);
    receivers.windows(2).find(late).map(|two| two[1].0)
}

/// A disc set with its receivers in the order of a medium, and for each of their lines
/// the one where it stood.
pub fn in_order(medium: Medium, set: Set) -> (Set, Vec<(usize, usize)>) {
    let before = receivers(&set);
    let mut after = before.clone();
    after.sort_by_key(|(_, text)| key(medium, text));
    let moves: Vec<(usize, usize)> =
        before.iter().zip(&after).map(|((to, _), (from, _))| (*to, *from)).collect();
    let places = before.iter().zip(after);
    let set = places.fold(set, |set, ((to, _), (_, text))| set.edit(File::R, *to, |_| text));
    (set, moves)
}

/// A disc set of which a tape can be made, sound but for names that become alike; its
/// receivers are in the order of one of the media.
pub fn plain(random: &mut Random) -> Set {
    let set = sound::sound(random).set.plain();
    in_order(random.pick(&[Medium::Disc, Medium::Tape]), set).0
}
