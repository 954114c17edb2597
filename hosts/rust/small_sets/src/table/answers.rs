//! Answers of accepted sets: traces, the way back, spread tables.

use super::write::{
    ask, channel, channel_of, comes_from, filled, placeless, spread, spread_of, trace, trace_of,
};
use crate::line::{marker, receiver, relation, shot};
use crate::place::{below, first, last_header, most_below};
use crate::table::paper::three_components;
use crate::Answer::{self, NoTrace};
use crate::File::{R, S, X};
use crate::{headers_only, set_a, Case, Question, Set};

pub fn cases() -> Vec<Case> {
    [of_set_a(), components(), gaps(), scattered(), alike(), records(), stays()].concat()
}

/// Cases of one set, named by what is asked.
pub fn of(name: &str, set: Set, rows: Vec<(Question, Answer)>) -> Vec<Case> {
    let case = |(question, expected): (Question, Answer)| {
        ask(format!("{name}: {question}"), set.clone(), question, expected)
    };
    rows.into_iter().map(case).collect()
}

/// The places of the spread table of set A.
fn receivers_of_a() -> [(usize, u8); 3] {
    [1, 2, 3].map(|n| (below(n), 1))
}

fn of_set_a() -> Vec<Case> {
    let rows = vec![
        (trace(1), comes_from(first(), 1)),
        (trace(2), comes_from(below(2), 1)),
        (trace(3), comes_from(below(3), 1)),
        (trace(4), NoTrace),
        (trace_of("100   ", 10, 1), NoTrace),
        (trace_of("101   ", 11, 1), NoTrace),
        (trace_of("1 00  ", 11, 1), NoTrace),
        (trace_of("100  0", 11, 1), NoTrace),
        (trace_of("000100", 11, 1), NoTrace),
        (channel(first(), 1), Answer::Channel(1)),
        (channel(below(2), 1), Answer::Channel(2)),
        (channel(below(3), 1), Answer::Channel(3)),
        (channel(below(3), 2), NoTrace),
        (channel(1, 1), NoTrace),
        (channel(last_header(), 1), NoTrace),
        (channel(below(4), 1), NoTrace),
        (channel_of("100   ", 12, first(), 1), NoTrace),
        (channel_of("101   ", 11, first(), 1), NoTrace),
        (spread(3, 3), filled(3, &receivers_of_a(), 3, 3)),
        (spread_of("101   ", 11, 3, 3), filled(0, &[], 3, 3)),
        (spread_of("100   ", 12, 3, 3), filled(0, &[], 3, 3)),
    ];
    let headers = vec![
        (trace(1), NoTrace),
        (channel(first(), 1), NoTrace),
        (spread(2, 2), filled(0, &[], 2, 2)),
    ];
    [of("set A", set_a(), rows), of("headers only", headers_only(), headers)].concat()
}

/// Three components of each receiver.
fn components() -> Vec<Case> {
    let places: Vec<(usize, u8)> = (1..=3).flat_map(|n| [1, 2, 3].map(|c| (below(n), c))).collect();
    let mut rows = vec![
        (trace(10), NoTrace),
        (channel(first(), 4), NoTrace),
        (channel(below(3), 9), NoTrace),
        (spread(9, 9), filled(9, &places, 9, 9)),
        (spread(12, 10), filled(9, &places, 12, 10)),
    ];
    for (number, (line, component)) in (1..).zip(places) {
        rows.push((trace(number), comes_from(line, component)));
        rows.push((channel(line, component.into()), Answer::Channel(number as u16)));
    }
    of("three components", three_components(), rows)
}

/// Channels 3-4 lead to 102 and 103, channels 7-8 to two components of 101.
fn gaps() -> Vec<Case> {
    let set = set_a()
        .edit(X, first(), |x| x.channels(3, 4).receivers(102, 103))
        .add(X, relation().channels(7, 8).increment("2").receivers(101, 101));
    let none = (0, 0);
    let [one, two, three] = [below(1), below(2), below(3)];
    let places = [none, none, (two, 1), (three, 1), none, none, (one, 1), (one, 2)];
    let rows = vec![
        (trace(2), NoTrace),
        (trace(3), comes_from(below(2), 1)),
        (trace(4), comes_from(below(3), 1)),
        (trace(5), NoTrace),
        (trace(6), NoTrace),
        (trace(7), comes_from(first(), 1)),
        (trace(8), comes_from(first(), 2)),
        (trace(9), NoTrace),
        (channel(first(), 1), Answer::Channel(7)),
        (channel(first(), 2), Answer::Channel(8)),
        (channel(first(), 3), NoTrace),
        (channel(below(2), 1), Answer::Channel(3)),
        (channel(below(2), 2), NoTrace),
        (channel(below(3), 1), Answer::Channel(4)),
        (spread(8, 8), filled(8, &places, 8, 8)),
        (spread(11, 9), filled(8, &places, 11, 9)),
        (spread(7, 8), placeless(21)),
        (spread(8, 7), placeless(21)),
    ];
    of("gaps", set, rows)
}

/// The lines of R: 101, 101 index 2, a marker, 102, 102 index 2, 103, a line of another name.
fn scattered() -> Vec<Case> {
    let set = set_a()
        .insert(R, below(2), receiver(101).index("2"))
        .insert(R, below(3), marker(R))
        .insert(R, below(5), receiver(102).index("2"))
        .add(R, receiver(102).name("L2"))
        .add(X, relation().channels(11, 12).receivers(101, 102).receiver_index("2"));
    let rows = vec![
        (trace(1), comes_from(first(), 1)),
        (trace(2), comes_from(below(4), 1)),
        (trace(3), comes_from(below(6), 1)),
        (trace(11), comes_from(below(2), 1)),
        (trace(12), comes_from(below(5), 1)),
        (channel(first(), 1), Answer::Channel(1)),
        (channel(below(2), 1), Answer::Channel(11)),
        (channel(below(3), 1), NoTrace),
        (channel(below(4), 1), Answer::Channel(2)),
        (channel(below(5), 1), Answer::Channel(12)),
        (channel(below(6), 1), Answer::Channel(3)),
        (channel(below(7), 1), NoTrace),
        (channel(below(8), 1), NoTrace),
    ];
    of("scattered receivers", set, rows)
}

/// Lines of R before those that are covered: the first of another name, the
/// third a marker, and both otherwise alike.
fn alike() -> Vec<Case> {
    let set = set_a().insert(R, first(), receiver(101).name("L0"));
    let set = set.insert(R, below(3), receiver(102).code("PM"));
    let rows = vec![
        (trace(1), comes_from(below(2), 1)),
        (trace(2), comes_from(below(4), 1)),
        (channel(first(), 1), NoTrace),
        (channel(below(2), 1), Answer::Channel(1)),
        (channel(below(3), 1), NoTrace),
        (channel(below(4), 1), Answer::Channel(2)),
        (spread(3, 3), filled(3, &[2, 4, 5].map(|n| (below(n), 1)), 3, 3)),
    ];
    of("lines alike", set, rows)
}

/// Two shots and three records, two of them of number 11 on different tapes.
fn records() -> Vec<Case> {
    let set = set_a()
        .edit(X, first(), |x| x.record_increment("2"))
        .add(S, shot(502).day(200))
        .add(X, relation().source(502).record(12).channels(1, 2).receivers(102, 103))
        .add(X, relation().source(502).tape("101").channels(2, 2).receivers(101, 101));
    let rows = vec![
        (trace_of("100   ", 11, 1), comes_from(first(), 1)),
        (trace_of("100   ", 12, 1), comes_from(below(2), 1)),
        (trace_of("100   ", 12, 3), NoTrace),
        (trace_of("100   ", 13, 1), NoTrace),
        (trace_of("100   ", 11 + 256, 1), NoTrace),
        (trace_of("101   ", 11, 1), NoTrace),
        (trace_of("101   ", 11, 2), comes_from(first(), 1)),
        (trace_of("101   ", 12, 1), NoTrace),
        (channel_of("100   ", 12, first(), 1), NoTrace),
        (channel_of("100   ", 12, below(3), 1), Answer::Channel(2)),
        (channel_of("100   ", 13, first(), 1), NoTrace),
        (channel_of("101   ", 11, first(), 1), Answer::Channel(2)),
        (channel_of("101   ", 11, below(2), 1), NoTrace),
        (spread_of("100   ", 11, 3, 4), filled(3, &receivers_of_a(), 3, 4)),
        (spread_of("100   ", 12, 3, 3), filled(2, &receivers_of_a()[1..], 3, 3)),
        (spread_of("100   ", 13, 3, 3), filled(0, &[], 3, 3)),
        (spread_of("101   ", 11, 2, 2), filled(2, &[(0, 0), (first(), 1)], 2, 2)),
    ];
    let zeros = set_a().put(X, first(), 8, "0011").put(X, first(), 39, "00010003");
    let zeros = zeros.put(R, below(2), 18, "00000102");
    let blanks =
        set_a().put(X, first(), 47, " ").put(X, first(), 80, " ").put(R, below(2), 26, " ");
    let plain =
        || vec![(trace(2), comes_from(below(2), 1)), (channel(below(2), 1), Answer::Channel(2))];
    [
        of("three records", set, rows),
        of("leading zeros", zeros, plain()),
        of("blank indices and increment", blanks, plain()),
    ]
    .concat()
}

/// Places behind the highest channel, and the ends of the ranges.
fn stays() -> Vec<Case> {
    let a = receivers_of_a();
    let last = set_a().edit(X, first(), |x| x.channels(9997, 9999));
    let mut far = vec![(0, 0); 9_996];
    far.extend(a);
    let rows = vec![
        (spread(4, 3), filled(3, &a, 4, 3)),
        (spread(3, 4), filled(3, &a, 3, 4)),
        (spread(20, 30), filled(3, &a, 20, 30)),
    ];
    let ends = vec![
        (trace(9996), NoTrace),
        (trace(9997), comes_from(first(), 1)),
        (trace(9999), comes_from(below(3), 1)),
        (channel(below(3), 1), Answer::Channel(9999)),
        (spread(9_999, 9_999), filled(9_999, &far, 9_999, 9_999)),
        (spread(10_001, 10_002), filled(9_999, &far, 10_001, 10_002)),
    ];
    let last_receiver = 100 + most_below() as u32;
    let long = set_a()
        .add_all(R, (104..=last_receiver).map(receiver))
        .edit(X, first(), |x| x.receivers(last_receiver - 2, last_receiver));
    let end_of_r = vec![
        (trace(3), comes_from(9_999, 1)),
        (channel(9_999, 1), Answer::Channel(3)),
        (channel(9_996, 1), NoTrace),
        (spread(3, 3), filled(3, &[(9_997, 1), (9_998, 1), (9_999, 1)], 3, 3)),
    ];
    [
        of("later places", set_a(), rows),
        of("the last channels", last, ends),
        of("the last line of R", long, end_of_r),
    ]
    .concat()
}
