//! The paper's own table, "Small sets to try".

use super::write::{accepted, as_a, ask, check, comes_from, refused, trace, trace_of};
use crate::line::{relation, shot};
use crate::place::{below, first};
use crate::File::{R, S, X};
use crate::{headers_only, set_a, Answer, Case, Set};

pub fn three_components() -> Set {
    set_a().edit(X, first(), |x| x.increment("3").channels(1, 9))
}

pub fn odd_channel() -> Set {
    set_a().edit(X, first(), |x| x.channels(1, 4))
}

pub fn missing_receiver() -> Set {
    set_a().edit(X, first(), |x| x.channels(1, 4).receivers(101, 104))
}

pub fn unsorted_receivers() -> Set {
    set_a().edit(R, below(2), |r| r.point(103)).edit(R, below(3), |r| r.point(102))
}

pub fn other_blanks() -> Set {
    let named = (1..=3).fold(set_a(), |set, n| set.edit(R, below(n), |r| r.name("1   12")));
    named.edit(X, first(), |x| x.receiver_name("11  2"))
}

pub fn moved_name() -> Set {
    set_a().edit(X, first(), |x| x.source_name(" L1"))
}

pub fn covered_twice() -> Set {
    set_a().add(X, relation().channels(4, 4).receivers(103, 103))
}

pub fn unnamed_shot() -> Set {
    set_a().add(S, shot(502))
}

pub fn increment_2() -> Set {
    set_a().edit(X, first(), |x| x.increment("2"))
}

pub fn leading_zeros() -> Set {
    set_a().put(X, first(), 30, "00000501")
}

pub fn channel_again() -> Set {
    set_a().add(X, relation().channels(3, 3).receivers(103, 103))
}

pub fn r_of_81_bytes() -> Set {
    set_a().cut(R, 81)
}

pub fn cases() -> Vec<Case> {
    vec![
        check("none", set_a(), as_a()),
        ask("none, channel 2 (p)", set_a(), trace(2), comes_from(below(2), 1)),
        ask("none, record 12 (p)", set_a(), trace_of("100   ", 12, 2), Answer::NoTrace),
        check("increment 3, channels 1-9 (p)", three_components(), accepted(3, 1, 1, 9)),
        ask(
            "increment 3, channels 1-9, channel 6 (p)",
            three_components(),
            trace(6),
            comes_from(below(2), 3),
        ),
        check("channels 1-4 (p)", odd_channel(), refused(6, X, first(), 72)),
        check("increment 2 (p)", increment_2(), refused(6, X, first(), 47)),
        check(
            "channels 1-4, receivers 101-104 (p)",
            missing_receiver(),
            refused(18, X, first(), 64),
        ),
        check("R points 101, 103, 102 (p)", unsorted_receivers(), refused(10, R, below(3), 2)),
        check(
            "R lines named `1   12`, X's receiver line name `11  2` (p)",
            other_blanks(),
            refused(18, X, first(), 64),
        ),
        check("X source point 00000501 (p)", leading_zeros(), as_a()),
        check("X source name moved one column right", moved_name(), refused(5, X, first(), 14)),
        check(
            "a second X line, channels 3-3, receiver 103 (p)",
            channel_again(),
            refused(17, X, below(2), 39),
        ),
        check("the same, channels 4-4 (p)", covered_twice(), refused(19, X, below(2), 64)),
        check("a second shot 502, same time", unnamed_shot(), refused(15, S, below(2), 1)),
        check("R of 81 bytes", r_of_81_bytes(), refused(1, R, 1, 0)),
        check("headers only", headers_only(), accepted(0, 0, 0, 0)),
    ]
}
