//! 20 and 21: questions out of range, slices too short.

use super::write::{
    ask, channel, channel_of, filled, placeless, refused, spread, spread_of, trace, trace_of,
};
use crate::place::{below, first};
use crate::File::{R, X};
use crate::{set_a, Answer, Case, Question};

pub fn cases() -> Vec<Case> {
    [tapes(), records(), numbers(), edges(), before_the_set(), slices()].concat()
}

fn out_of_range(name: String, question: Question) -> Case {
    ask(name, set_a(), question, placeless(20))
}

/// The three questions of a tape and record that would find set A's traces.
fn all_three(tape: &[u8], record: u64) -> [(&'static str, Question); 3] {
    [
        ("trace", trace_of(tape, record, 2)),
        ("channel", channel_of(tape, record, below(2), 1)),
        ("spread", spread_of(tape, record, 3, 3)),
    ]
}

fn tapes() -> Vec<Case> {
    let mut cases = Vec::new();
    let bad: [&[u8]; 14] = [
        b"",
        b"1",
        b"100",
        b"100  ",
        b"100    ",
        b"100   100   ",
        b"      ",
        b" 100  ",
        b"100  \x1f",
        b"100  \x7f",
        b"\x00\x00\x00\x00\x00\x00",
        b"100\xff  ",
        b"100\r\n ",
        b"\x80100  ",
    ];
    for tape in bad {
        for (kind, question) in all_three(tape, 11) {
            let text = tape.escape_ascii();
            cases.push(out_of_range(format!("{kind} of tape `{text}`"), question));
        }
    }
    cases
}

/// Past 9999, also where fewer bits would hold 11.
fn records() -> Vec<Case> {
    let mut cases = Vec::new();
    for record in [10_000, 65_547, (1 << 32) + 11, u64::MAX] {
        for (kind, question) in all_three(b"100   ", record) {
            cases.push(out_of_range(format!("{kind} of record {record}"), question));
        }
    }
    cases
}

/// Channels, R lines and components, also where fewer bits would be in range.
fn numbers() -> Vec<Case> {
    let mut cases = Vec::new();
    for number in [0, 10_000, 65_538, (1 << 32) + 2, u64::MAX] {
        cases.push(out_of_range(format!("channel {number}"), trace(number)));
    }
    for line in [0, 10_000, (1 << 16) + below(2), (1 << 32) + below(2), usize::MAX] {
        cases.push(out_of_range(format!("R line {line}"), channel(line, 1)));
    }
    for component in [0, 10, 257, 65_537, (1 << 32) + 1, u64::MAX] {
        let name = format!("component {component}");
        cases.push(out_of_range(name, channel(below(2), component)));
    }
    cases
}

/// The last values in range, where there is no trace.
fn edges() -> Vec<Case> {
    let none = |name: &str, question| ask(name, set_a(), question, Answer::NoTrace);
    vec![
        none("channel 9999", trace(9999)),
        none("record 0", trace_of("100   ", 0, 2)),
        none("record 9999", trace_of("100   ", 9999, 2)),
        none("tape `~~~~~~`", trace_of("~~~~~~", 11, 2)),
        none("tape `1     `", trace_of("1     ", 11, 2)),
        none("R line 9999", channel(9999, 1)),
        none("component 9", channel(below(2), 9)),
        none("record 9999, way back", channel_of("100   ", 9999, below(2), 1)),
    ]
}

/// 20 comes before the set, the set before an answer.
fn before_the_set() -> Vec<Case> {
    let broken = || set_a().cut(R, 81);
    let empty = || set_a().each(|set, file| set.cut(file, 0));
    let broken_x = || set_a().edit(X, first(), |x| x.receivers(101, 104));
    vec![
        ask("channel 0 of a broken set", broken(), trace(0), placeless(20)),
        ask("R line 0 of a broken set", broken(), channel(0, 1), placeless(20)),
        ask("component 10 of a broken set", broken(), channel(below(2), 10), placeless(20)),
        ask(
            "record 10000 of a broken set",
            broken(),
            spread_of("100   ", 10_000, 3, 3),
            placeless(20),
        ),
        ask("a short tape of empty files", empty(), trace_of("100", 11, 2), placeless(20)),
        ask("a trace of a broken set", broken(), trace(2), refused(1, R, 1, 0)),
        ask("a channel of a broken set", broken(), channel(below(2), 1), refused(1, R, 1, 0)),
        ask("a spread of a broken set", broken(), spread(3, 3), refused(1, R, 1, 0)),
        ask("a trace of empty files", empty(), trace(2), refused(7, R, 1, 0)),
        ask("a trace of an odd relation", broken_x(), trace(2), refused(6, X, first(), 72)),
        ask(
            "an absent record of an odd relation",
            broken_x(),
            trace_of("100   ", 12, 2),
            refused(6, X, first(), 72),
        ),
        ask("R line 1 of an odd relation", broken_x(), channel(1, 1), refused(6, X, first(), 72)),
    ]
}

/// 21: both slices hold the highest channel, or nothing is written.
fn slices() -> Vec<Case> {
    let mut cases = Vec::new();
    for (lines, components) in [(0, 0), (2, 3), (3, 2), (2, 2), (0, 3), (3, 0), (2, 100)] {
        cases.push(ask(
            format!("slices of {lines} and {components}"),
            set_a(),
            spread(lines, components),
            placeless(21),
        ));
    }
    let far = || set_a().edit(X, first(), |x| x.channels(9997, 9999));
    let short_and_record = spread_of("100   ", 10_000, 0, 0);
    let absent = spread_of("100   ", 12, 0, 0);
    cases.extend([
        ask("slices of 9998 for channel 9999", far(), spread(9_998, 9_999), placeless(21)),
        ask("slices of three for channels 9997-9999", far(), spread(3, 3), placeless(21)),
        ask("20 before 21", set_a(), short_and_record, placeless(20)),
        ask("no slice for an absent record", set_a(), absent, filled(0, &[], 0, 0)),
        ask("no slice for a broken set", set_a().cut(R, 81), spread(0, 0), refused(1, R, 1, 0)),
    ]);
    cases
}
