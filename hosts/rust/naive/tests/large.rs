//! Sets near the limits: 9,999 lines a file, some two million traces, every line descending.

use many_sets::large::{self, FULL, HOSTILE};
use naive::{channel, check, read_relation, spread, trace, Counts, Medium, Trace};
use small_sets::place::{below, first};
use small_sets::{File, Set};

#[test]
fn two_million_traces() {
    let set = large::two_million_traces();
    let (disc, files) = (Medium::Disc, set.files());
    let (last, most) = (u64::from(large::most()) - 1, u64::from(large::most()));
    let (receivers, shots, relations, traces) = (most, most, most, 200 * most);
    let counts = Counts { receivers, shots, relations, traces, dead_traces: 0 };
    assert_eq!(check(disc, files), Ok(counts));
    let tape = b"100   ";
    let found = Some(Trace { r_line: 9_999, component: 1, killed: false });
    assert_eq!(trace(disc, files, tape, last, 200), Ok(found));
    assert_eq!(channel(disc, files, tape, last, 9_999, 1), Ok(Some(200)));
    let (mut lines, mut components) = ([0; 200], [0; 200]);
    let highest = spread(disc, files, tape, 5_000, &mut lines, &mut components);
    assert_eq!(highest, Ok(200));
    assert!(lines.into_iter().eq((5_001..).map(|n| below(n) as u16).take(200)));
    assert_eq!(components, [1; 200]);
}

/// One of the sets that are made to take long.
fn hostile(name: &str) -> Set {
    let (_, make) = HOSTILE.into_iter().find(|(of, _)| *of == name).expect("a hostile set");
    make(FULL)
}

/// 77 records of 129 lines, each of them of 77 receivers: every line descends, and the
/// counts are those of the set in which every line ascends.
#[test]
fn laid_out_backwards() {
    let (up, down) =
        (hostile("records of 129 lines"), hostile("records of 129 lines, laid out backwards"));
    let relations = |set: &Set| -> Vec<(u32, u32)> {
        let lines = (first()..=set.lines(File::X)).map(|line| set.line(File::X, line).0);
        let read = lines.map(|line| read_relation(&line).expect("a relation"));
        read.map(|relation| (relation.from_receiver, relation.to_receiver)).collect()
    };
    assert_eq!(relations(&down).len(), 77 * 129);
    assert!(relations(&down).iter().all(|(from, to)| from > to));
    assert!(relations(&down).into_iter().eq(relations(&up).iter().map(|&(from, to)| (to, from))));
    let counts = check(Medium::Disc, down.files());
    assert_eq!(counts.map(|counts| counts.traces), Ok(77 * 129 * 77));
    assert_eq!(counts, check(Medium::Disc, up.files()));
}
