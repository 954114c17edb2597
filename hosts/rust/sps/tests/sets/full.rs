//! 9,999 and 10,000 lines.

use crate::answers::refused;
use crate::compare::{compare, compare_calls};
use many_sets::large::{most, seeded, two_million_traces, FULL, HOSTILE};
use many_sets::run::random;
use small_sets::place::{below, first};
use small_sets::{headers_only, receiver, relation, shot, File, Line, Set};
use sps::Accepted;
use std::collections::BTreeSet;

/// 9,999 lines are not too many, 10,000 are; a byte more or less is named first.
#[test]
fn most_lines() {
    let full = two_million_traces();
    let most = u64::from(most());
    let (receivers, shots, relations, traces) = (most, most, most, 200 * most);
    let counts = Accepted { receivers, shots, relations, traces, dead_traces: 0 };
    assert_eq!(compare_calls(&full, "9,999 lines"), Ok(counts));
    for file in File::ALL {
        let refused = |number, line| refused(number, file, line, 0);
        let last = full.line(file, 9_999);
        let more = full.clone().add(file, last);
        assert_eq!(compare_calls(&more, "10,000 lines"), refused(2, 10_000));
        assert_eq!(compare_calls(&more.clone().over(file, 1), "and a byte"), refused(1, 10_000));
        assert_eq!(compare_calls(&more.over(file, 82), "10,001 lines"), refused(2, 10_000));
        let less = full.clone().cut(file, 9_999 * 82 - 1);
        assert_eq!(compare_calls(&less, "9,999 lines but a byte"), refused(1, 9_999));
    }
}

/// A fault in the last line of a full file is found there.
#[test]
fn last_lines() {
    let full = two_million_traces();
    let hold = |set: Set, number, file: File, column| {
        assert_eq!(compare(&set, "the last line"), refused(number, file, 9_999, column));
    };
    let last = |file, change: &dyn Fn(Line) -> Line| full.clone().edit(file, 9_999, change);
    for file in File::ALL {
        hold(full.clone().byte(file, 9_999, 82, b' '), 3, file, 82);
        hold(last(file, &|line| line.at(1, "H")), 4, file, 1);
    }
    // The points of the last line, of the line before it and of one more before.
    let [point, before, far] = [1, 2, 3].map(|n| most() - n);
    hold(last(File::X, &|x| x.at(72, "99999999")), 6, File::X, 72);
    hold(last(File::R, &|r| r.point(before)), 10, File::R, 2);
    hold(last(File::S, &|s| s.day(112)), 11, File::S, 72);
    hold(last(File::S, &|s| s.point(0)), 12, File::S, 2);
    hold(last(File::X, &|x| x.source(point + 1)), 13, File::X, 14);
    hold(last(File::X, &|x| x.source(far)), 14, File::X, 14);
    hold(last(File::X, &|x| x.source(before)), 15, File::S, 1);
    hold(last(File::X, &|x| x.record(0)), 16, File::X, 2);
    hold(last(File::X, &|x| x.receivers(point - 198, point + 1)), 18, File::X, 64);
    let record = |x: Line| x.record(before).source(before);
    hold(last(File::X, &record), 17, File::X, 39);
    hold(last(File::X, &|x| record(x).channels(201, 400)), 19, File::X, 64);
}

/// One line covers all receivers: any that is killed, any that lacks, and any that is covered
/// again.
#[test]
fn one_wide_line() {
    let most = most();
    let wide = headers_only()
        .add_all(File::R, (1..=most).map(receiver))
        .add(File::S, shot(501))
        .add(File::X, relation().channels(1, most).receivers(1, most));
    let refused = |number, line| refused(number, File::X, line as u64, 64);
    let (receivers, traces) = (most.into(), most.into());
    let counts = Accepted { receivers, shots: 1, relations: 1, traces, dead_traces: 0 };
    assert_eq!(compare_calls(&wide, "one line"), Ok(counts));
    let killed = (first()..)
        .take(most as usize)
        .fold(wide.clone(), |set, line| set.edit(File::R, line, |r| r.code("KL")));
    let dead = Accepted { dead_traces: traces, ..counts };
    assert_eq!(compare_calls(&killed, "one line, all killed"), Ok(dead));
    for n in [1, 2, 255, 256, 257, 512, 4_096, 8_192, most - 1, most] {
        let killed = wide.clone().edit(File::R, below(n as usize), |r| r.code("KL"));
        let one = Accepted { dead_traces: 1, ..counts };
        assert_eq!(compare_calls(&killed, &format!("{n} killed")), Ok(one));
        let without = wide.clone().remove(File::R, below(n as usize));
        assert_eq!(compare_calls(&without, &format!("without {n}")), refused(18, first()));
        let again =
            wide.clone().add(File::X, relation().channels(most + 1, most + 1).receivers(n, n));
        assert_eq!(compare_calls(&again, &format!("{n} again")), refused(19, below(2)));
    }
}

/// Sets that are made to take long are no different.
#[test]
fn hostile_sets() {
    let mut numbers = BTreeSet::new();
    for (name, make) in HOSTILE {
        let answer = compare(&make(FULL), name);
        numbers.insert(answer.map_or_else(|refusal| refusal.number.code(), |_| 0));
    }
    assert_eq!(numbers, BTreeSet::from([0, 9, 12, 13, 15, 16, 18, 19, 24, 25]));
}

/// The survey of a benchmark is accepted at each of its sizes.
#[test]
fn seeded_sets() {
    for lines in [100, 1_000, 9_999] {
        let set = seeded(&mut random(37), lines);
        assert_eq!(File::ALL.map(|file| set.lines(file)), [lines; 3]);
        let accepted = compare_calls(&set, "a survey").expect("an accepted set");
        assert!(accepted.traces > lines as u64, "{accepted}");
    }
}
