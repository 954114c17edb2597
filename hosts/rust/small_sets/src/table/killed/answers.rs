//! What channels lead to where receivers are killed, the way back, and the spread table, which has
//! no mark.

use super::{asked, between, dead, killed_receiver, killing};
use crate::line::{receiver, relation};
use crate::place::{below, first, most_below};
use crate::table::records::{second, third, with};
use crate::table::write::{
    channel, channel_of, comes_from, comes_from_killed, filled, placeless, refused, spread, trace,
    trace_of,
};
use crate::Answer::{self, Channel, NoTrace};
use crate::File::{R, S, X};
use crate::{set_a, Case, Question};

pub fn cases() -> Vec<Case> {
    [components(), each_channel(), among_others(), lines(), last_line(), refusals()].concat()
}

/// A lookup, and the way back.
fn there_and_back(
    number: u64,
    line: usize,
    component: u8,
    killed: bool,
) -> [(Question, Answer); 2] {
    let found = match killed {
        true => comes_from_killed(line, component),
        false => comes_from(line, component),
    };
    [(trace(number), found), (channel(line, component.into()), Channel(number as u16))]
}

/// Three components each, of which those of 102 are dead.
fn components() -> Vec<Case> {
    let places: Vec<(usize, u8)> = (1..=3).flat_map(|n| [1, 2, 3].map(|c| (below(n), c))).collect();
    let mut rows = vec![
        (trace(10), NoTrace),
        (trace_of("100   ", 12, 4), NoTrace),
        (channel(below(2), 4), NoTrace),
        (channel_of("101   ", 11, below(2), 1), NoTrace),
        (spread(9, 9), filled(9, &places, 9, 9)),
        (spread(8, 9), placeless(21)),
        (trace(0), placeless(20)),
    ];
    for (number, (line, component)) in (1..).zip(places) {
        rows.extend(there_and_back(number, line, component, line == below(2)));
    }
    asked("three components", killed_receiver(), rows)
}

/// Each of the receivers of set A, counted up and down.
fn each_channel() -> Vec<Case> {
    let mut cases = Vec::new();
    for killed in 1..=3 {
        for (way, lines) in [("up", [1, 2, 3]), ("down", [3, 2, 1])] {
            let ends = |n: usize| 100 + lines[n] as u32;
            let set =
                killing(set_a(), &[killed]).edit(X, first(), |x| x.receivers(ends(0), ends(2)));
            let places = lines.map(|n| (below(n), 1));
            let mut rows = vec![(trace(4), NoTrace), (spread(3, 3), filled(3, &places, 3, 3))];
            for (number, n) in (1..).zip(lines) {
                rows.extend(there_and_back(number, below(n), 1, n == killed));
            }
            cases.extend(asked(&format!("receiver 10{killed}, {way}"), set, rows));
        }
    }
    cases
}

/// Killed receivers between those of another index, and behind them one that no line covers.
fn among_others() -> Vec<Case> {
    let mut rows = vec![
        (channel(below(3), 1), NoTrace),
        (channel(below(7), 1), NoTrace),
        (channel(below(8), 1), NoTrace),
        (trace(10), NoTrace),
        (trace(17), NoTrace),
    ];
    for (number, line) in [(1, 1), (2, 4), (3, 6)] {
        rows.extend(there_and_back(number, below(line), 1, false));
    }
    let of_index_2 = [2, 5].into_iter().flat_map(|line| [1, 2, 3].map(|c| (below(line), c)));
    for (number, (line, component)) in (11..).zip(of_index_2.clone()) {
        rows.extend(there_and_back(number, line, component, true));
    }
    let mut places: Vec<(usize, u8)> = [1, 4, 6].map(|line| (below(line), 1)).to_vec();
    places.resize(10, (0, 0));
    places.extend(of_index_2);
    rows.push((spread(17, 16), filled(16, &places, 17, 16)));
    asked("other indices between", between(), rows)
}

/// A record of three lines, one of them counted down, and one record of its own.
fn lines() -> Vec<Case> {
    let down = third().receivers(109, 107);
    let set = killing(with(&[second(), down, relation().record(12)]), &[1, 4, 6, 9]);
    let lines = [1, 2, 3, 4, 5, 6, 9, 8, 7];
    let mut rows = vec![(spread(9, 9), filled(9, &lines.map(|n| (below(n), 1)), 9, 9))];
    for (number, n) in (1..).zip(lines) {
        rows.extend(there_and_back(number, below(n), 1, [1, 4, 6, 9].contains(&n)));
    }
    rows.extend([
        (trace_of("100   ", 12, 1), comes_from_killed(first(), 1)),
        (trace_of("100   ", 12, 2), comes_from(below(2), 1)),
        (trace_of("100   ", 12, 4), NoTrace),
        (channel_of("100   ", 12, first(), 1), Channel(1)),
        (channel_of("100   ", 12, below(4), 1), NoTrace),
    ]);
    asked("lines of two records", set, rows)
}

/// The last line that both media have room for, with its ninth component on the last channel.
fn last_line() -> Vec<Case> {
    let last = most_below() - 1;
    let point = 100 + last as u32;
    let set = set_a().add_all(R, (104..point).map(receiver)).add(R, dead(receiver(point))).edit(
        X,
        first(),
        |x| x.channels(9_991, 9_999).increment("9").receivers(point, point),
    );
    let mut rows = vec![(trace(9_990), NoTrace), (channel(below(last) - 1, 9), NoTrace)];
    for component in 1..=9 {
        rows.extend(there_and_back(9_990 + u64::from(component), below(last), component, true));
    }
    asked("the last line of R", set, rows)
}

/// A killed shot that is named is refused before an answer.
fn refusals() -> Vec<Case> {
    let set = killed_receiver().edit(S, first(), dead);
    let no = || refused(13, X, first(), 14);
    let rows = vec![
        (trace(4), no()),
        (channel(below(2), 1), no()),
        (spread(9, 9), no()),
        (spread(0, 0), no()),
        (trace(0), placeless(20)),
    ];
    asked("the shot named", set, rows)
}
