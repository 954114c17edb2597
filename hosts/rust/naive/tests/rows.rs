//! The traces of a set as rows, held to what is written by hand and to the lookups.

use many_sets::run::{random, turns};
use many_sets::sound::sound;
use naive::{channel, check, relation_at, rows, trace, Medium, Row, Trace};
use small_sets::place::{below, first};
use small_sets::{receiver, relation, set_a, shot, File, Set};

fn medium(set: &Set) -> Medium {
    naive::medium(set.medium as u64).expect("a medium")
}

/// All rows of an accepted set.
fn all(set: &Set) -> Vec<Row> {
    rows(medium(set), set.files(), 0, usize::MAX).expect("an accepted set").1
}

/// A row by the lines below the header of X and of R.
fn row(x: usize, channel: u16, r: usize, component: u8, killed: bool) -> Row {
    let trace = Trace { r_line: below(r) as u16, component, killed };
    Row { x_line: below(x) as u32, channel, trace }
}

/// Set A with a receiver more, the second one killed, and two records more: one of two components
/// laid out backwards, and one of two lines with channels between them that are not covered.
fn three_records() -> Set {
    let line = |record, shot| relation().record(record).source(shot);
    let relations = [
        line(12, 502).channels(5, 8).increment("2").receivers(103, 102),
        line(13, 503).channels(2, 2).receivers(104, 104),
        line(13, 503).channels(7, 8).receivers(101, 102),
    ];
    set_a()
        .add(File::R, receiver(104))
        .edit(File::R, below(2), |r| r.code("KL"))
        .add_all(File::S, [502, 503].map(shot))
        .add_all(File::X, relations)
}

fn by_hand() -> Vec<Row> {
    vec![
        row(1, 1, 1, 1, false),
        row(1, 2, 2, 1, true),
        row(1, 3, 3, 1, false),
        row(2, 5, 3, 1, false),
        row(2, 6, 3, 2, false),
        row(2, 7, 2, 1, true),
        row(2, 8, 2, 2, true),
        row(3, 2, 4, 1, false),
        row(4, 7, 1, 1, false),
        row(4, 8, 2, 1, true),
    ]
}

#[test]
fn in_the_order_of_x() {
    let disc = three_records();
    let tape = disc.on_tape().expect("characters of a tape");
    for set in [disc, tape] {
        assert_eq!(all(&set), by_hand());
    }
    assert_eq!(all(&set_a()).len(), 3);
    assert_eq!(all(&small_sets::headers_only()), []);
}

/// Each number of places from each trace on, and from beyond the last.
#[test]
fn parts() {
    let (set, whole) = (three_records(), by_hand());
    let counts = check(Medium::Disc, set.files()).expect("an accepted set");
    for first in (0..=whole.len() as u64 + 1).chain([1 << 32, u64::MAX]) {
        let left = whole.get(first as usize..).unwrap_or_default();
        for places in 0..=whole.len() + 1 {
            let part = left[..places.min(left.len())].to_vec();
            assert_eq!(rows(Medium::Disc, set.files(), first, places), Ok((counts, part)));
        }
    }
}

#[test]
fn places() {
    let trace = Trace { r_line: 0x1234, component: 9, killed: true };
    let row = Row { x_line: 0x0102_0304, channel: 0x270F, trace };
    let bytes = [4, 3, 2, 1, 0x0F, 0x27, 0, 0, 0x34, 0x12, 0, 0, 9, 1, 0, 0];
    assert_eq!(row.place(), bytes);
    let live = Row { trace: Trace { killed: false, ..trace }, ..row };
    assert_eq!(live.place()[13], 0);
}

#[test]
fn refused() {
    let set = set_a().put(File::X, first(), 43, "   4");
    let refusal = check(Medium::Disc, set.files()).expect_err("a channel too many");
    assert_eq!(rows(Medium::Disc, set.files(), 0, 3), Err(refusal));
}

/// On sets that are made: each row is what the lookup of its line's record answers, and the way
/// back is its channel.
#[test]
fn beside_lookups() {
    let mut random = random(30);
    let mut seen = 0;
    for _ in 0..turns(200) {
        let set = sound(&mut random).set;
        let (disc, files, rows) = (Medium::Disc, set.files(), all(&set));
        let traces = check(disc, files).expect("an accepted set").traces;
        assert_eq!(rows.len() as u64, traces);
        for Row { x_line, channel: own, trace: found } in rows.into_iter().take(20) {
            let line = relation_at(disc, &set.x, x_line.into()).expect("a relation line");
            let tape = &line.tape;
            let asked = trace(disc, files, tape, line.record, own.into());
            assert_eq!(asked, Ok(Some(found)));
            let (r_line, component) = (found.r_line.into(), found.component.into());
            let back = channel(disc, files, tape, line.record, r_line, component);
            assert_eq!(back, Ok(Some(own)));
            seen += 1;
        }
    }
    assert!(seen > 1_000, "{seen} rows");
}
