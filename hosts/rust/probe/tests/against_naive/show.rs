//! Showing a line of random files, whole lines or not.

use many_sets::run::{random, turns};
use small_sets::Random;

/// A line number: 0, within the file, its last, just beyond it, far beyond it.
fn line(random: &mut Random, lines: usize) -> usize {
    match random.below(8) {
        0 => 0,
        1 => lines,
        2 => lines + 1,
        3 => usize::MAX - random.below(2),
        _ => 1 + random.below(lines + 2),
    }
}

#[test]
fn shown_lines() {
    let mut random = random(11);
    let mut whole_lines = 0;
    for turn in 0..turns(10_000) {
        let lengths = [82 * random.below(5), random.below(400)];
        let [r, s] = lengths.map(|length| random.bytes(length));
        let (r, s) = if random.below(2) == 0 { (r, s) } else { (s, r) };
        let letter = if turn % 4 == 0 { random.bytes(1)[0] } else { random.pick(b"RS") };
        let n = line(&mut random, if letter == b'S' { s.len() } else { r.len() } / 82);
        let room = [0, 79, 80, 81, 120][random.below(5)];
        let before = random.bytes(room);
        let mut out = before.clone();

        let columns = probe::show(&r, &s, letter, n, &mut out);

        let shown = naive::show(&r, &s, letter, n);
        let asked = format!("{letter} {n} of {} and {} bytes, {room} places", r.len(), s.len());
        assert_eq!(columns, shown.len() as u64, "{asked}");
        let written = if shown.len() <= room { shown.len() } else { 0 };
        assert_eq!(out[..written], shown[..written], "{asked}");
        assert_eq!(out[written..], before[written..], "{asked}");
        whole_lines += usize::from(written == 80);
    }
    assert!(whole_lines > 1_000, "{whole_lines} lines are shown whole");
}
