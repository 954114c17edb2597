//! What channels lead to where receivers are counted downwards, the way back, and the
//! spread table.

use super::{all_channels, backwards, numbered, on_tape, three_components};
use crate::line::{marker, receiver, relation};
use crate::place::{below, first};
use crate::table::answers::of;
use crate::table::records::with;
use crate::table::write::{
    channel, channel_of, comes_from, filled, placeless, spread, spread_of, trace, trace_of,
};
use crate::Answer::{Channel, NoTrace};
use crate::File::{R, X};
use crate::{Case, Set};

pub fn cases() -> Vec<Case> {
    [each_channel(), both_ways(), scattered(), ends()].concat()
}

/// Each channel of a line, there and back.
fn each_channel() -> Vec<Case> {
    let down = |components: u8| -> Vec<(usize, u8)> {
        [3, 2, 1].iter().flat_map(|&n| (1..=components).map(move |c| (below(n), c))).collect()
    };
    let single = |set: Set, name: &str| {
        let mut rows = vec![
            (trace(4), NoTrace),
            (trace_of("100   ", 12, 1), NoTrace),
            (channel(below(2), 2), NoTrace),
            (channel(below(4), 1), NoTrace),
            (spread(3, 3), filled(3, &down(1), 3, 3)),
            (spread(5, 4), filled(3, &down(1), 5, 4)),
            (spread(2, 3), placeless(21)),
        ];
        for (number, (line, component)) in (1..).zip(down(1)) {
            rows.push((trace(number), comes_from(line, component)));
            rows.push((channel(line, component.into()), Channel(number as u16)));
        }
        of(name, set, rows)
    };
    let mut rows = vec![
        (trace(10), NoTrace),
        (channel(first(), 4), NoTrace),
        (spread(9, 9), filled(9, &down(3), 9, 9)),
        (spread(8, 9), placeless(21)),
    ];
    for (number, (line, component)) in (1..).zip(down(3)) {
        rows.push((trace(number), comes_from(line, component)));
        rows.push((channel(line, component.into()), Channel(number as u16)));
    }
    [
        single(backwards(), "backwards"),
        single(on_tape(backwards()), "backwards, on tape"),
        single(numbered(0), "backwards, the lowest numbers"),
        single(numbered(99_999_997), "backwards, the highest numbers"),
        of("backwards, three components", three_components(), rows),
    ]
    .concat()
}

/// Record 11 has 103 and 102 on channels 3-4, 101 on 7-8 and 104 to 106 on 9-11; record 12
/// is set A's.
fn both_ways() -> Vec<Case> {
    let set = with(&[])
        .edit(X, first(), |x| x.channels(3, 4).receivers(103, 102))
        .add(X, relation().channels(7, 8).increment("2").receivers(101, 101))
        .add(X, relation().channels(9, 11).receivers(104, 106))
        .add(X, relation().record(12));
    let (none, at) = ((0, 0), |n| (below(n), 1));
    let places = [none, none, at(3), at(2), none, none, at(1), (below(1), 2), at(4), at(5), at(6)];
    let rows = vec![
        (trace(2), NoTrace),
        (trace(3), comes_from(below(3), 1)),
        (trace(4), comes_from(below(2), 1)),
        (trace(5), NoTrace),
        (trace(8), comes_from(first(), 2)),
        (trace(11), comes_from(below(6), 1)),
        (channel(first(), 2), Channel(8)),
        (channel(below(2), 1), Channel(4)),
        (channel(below(3), 1), Channel(3)),
        (channel(below(4), 1), Channel(9)),
        (spread(11, 11), filled(11, &places, 11, 11)),
        (trace_of("100   ", 12, 3), comes_from(below(3), 1)),
        (channel_of("100   ", 12, below(3), 1), Channel(3)),
        (spread_of("100   ", 12, 3, 3), filled(3, &[1, 2, 3].map(at), 3, 3)),
    ];
    of("both ways", set, rows)
}

/// The lines of R: 101, 101 index 2, a marker, 102, 102 index 2, 103.
fn scattered() -> Vec<Case> {
    let set = backwards()
        .insert(R, below(2), receiver(101).index("2"))
        .insert(R, below(3), marker(R))
        .insert(R, below(5), receiver(102).index("2"))
        .add(X, relation().channels(11, 12).receivers(102, 101).receiver_index("2"));
    let rows = vec![
        (trace(1), comes_from(below(6), 1)),
        (trace(2), comes_from(below(4), 1)),
        (trace(3), comes_from(first(), 1)),
        (trace(11), comes_from(below(5), 1)),
        (trace(12), comes_from(below(2), 1)),
        (channel(first(), 1), Channel(3)),
        (channel(below(2), 1), Channel(12)),
        (channel(below(3), 1), NoTrace),
        (channel(below(4), 1), Channel(2)),
        (channel(below(5), 1), Channel(11)),
        (channel(below(6), 1), Channel(1)),
    ];
    of("backwards, scattered receivers", set, rows)
}

/// The first and the last of all channels.
fn ends() -> Vec<Case> {
    let last = backwards().edit(X, first(), |x| x.channels(9_997, 9_999));
    let mut far = vec![(0, 0); 9_996];
    far.extend([3, 2, 1].map(|n| (below(n), 1)));
    let last_rows = vec![
        (trace(9_996), NoTrace),
        (trace(9_997), comes_from(below(3), 1)),
        (trace(9_999), comes_from(first(), 1)),
        (channel(first(), 1), Channel(9_999)),
        (spread(9_999, 9_999), filled(9_999, &far, 9_999, 9_999)),
    ];
    let all_rows = vec![
        (trace(1), comes_from(below(1_111), 1)),
        (trace(9), comes_from(below(1_111), 9)),
        (trace(10), comes_from(below(1_110), 1)),
        (trace(9_991), comes_from(first(), 1)),
        (trace(9_999), comes_from(first(), 9)),
        (channel(first(), 1), Channel(9_991)),
        (channel(first(), 9), Channel(9_999)),
        (channel(below(1_111), 1), Channel(1)),
        (channel(below(1_112), 1), NoTrace),
    ];
    [
        of("backwards, the last channels", last, last_rows),
        of("backwards, all channels", all_channels(), all_rows),
    ]
    .concat()
}
