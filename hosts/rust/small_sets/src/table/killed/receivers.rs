//! Dead traces: those of killed receivers, counted by channel.

use super::{between, both, dead, killed, killed_receiver, killing, of_index_2};
use crate::line::{marker, receiver, relation, shot, Line};
use crate::place::{below, first, most_below};
use crate::table::records::{second, third, with};
use crate::table::write::{accepted, refused, with_dead};
use crate::File::{R, S, X};
use crate::{set_a, Answer, Case, Set};

pub fn cases() -> Vec<Case> {
    [counted(), components(), records(), among_others(), judged(), many()].concat()
}

/// The counts of set A with so many dead traces.
fn as_a_with(dead: u64) -> Answer {
    with_dead([3, 1, 1, 3], dead)
}

/// Which receivers are killed, on one channel each.
fn counted() -> Vec<Case> {
    let case = |name: &str, lines: &[usize]| {
        both(name, killing(set_a(), lines), as_a_with(lines.len() as u64))
    };
    [
        case("the first receiver", &[1]),
        case("the second receiver", &[2]),
        case("the third receiver", &[3]),
        case("the first and the third receiver", &[1, 3]),
        case("the first two receivers", &[1, 2]),
        case("all receivers", &[1, 2, 3]),
        both(
            "a receiver that is not covered",
            set_a().add(R, dead(receiver(104))),
            accepted(4, 1, 1, 3),
        ),
        both(
            "the receivers and no relation line",
            killing(set_a(), &[1, 2, 3]).remove(X, first()).remove(S, first()),
            accepted(3, 0, 0, 0),
        ),
    ]
    .concat()
}

/// Each component of a killed receiver is a dead trace.
fn components() -> Vec<Case> {
    let of = |components: u32| {
        set_a()
            .edit(X, first(), |x| x.increment(&components.to_string()).channels(1, 3 * components))
    };
    let mut cases = [
        both("receiver 102 of three components", killed_receiver(), with_dead([3, 1, 1, 9], 3)),
        both("a receiver and a shot", killed(), with_dead([3, 2, 1, 9], 3)),
    ]
    .concat();
    for (n, components) in (1..=9).map(|n| (u64::from(n), n)) {
        let counts = [3, 1, 1, 3 * n];
        let name = |what: &str| format!("{what}, increment {n}");
        cases.extend(both(&name("one"), killing(of(components), &[3]), with_dead(counts, n)));
        cases.extend(both(
            &name("two"),
            killing(of(components), &[1, 2]),
            with_dead(counts, 2 * n),
        ));
        let down = killing(of(components), &[1]).edit(X, first(), |x| x.receivers(103, 101));
        cases.extend(both(&name("one of three backwards"), down, with_dead(counts, n)));
    }
    cases
}

/// Each record that covers a killed receiver has its dead traces, and so has each line of a record.
fn records() -> Vec<Case> {
    let case = |name: &str, lines: &[Line], killed: &[usize], traces, dead| {
        let relations = 1 + lines.len() as u64;
        both(name, killing(with(lines), killed), with_dead([9, 1, relations, traces], dead))
    };
    let tripled = |line: Line, from, to| line.increment("3").channels(from, to);
    let second_up = tripled(second(), 4, 12);
    let third_down = third().receivers(109, 107).channels(13, 15);
    let record_12 = tripled(relation().record(12), 1, 9);
    let two_shots = killing(set_a(), &[2])
        .add(S, shot(502))
        .add(X, relation().source(502).record(12).channels(5, 6).receivers(102, 103));
    [
        case("two records", &[relation().record(12)], &[2], 6, 2),
        case("two records of other increments", &[record_12], &[2, 3], 12, 8),
        case("on two tapes", &[relation().tape("101")], &[1, 3], 6, 4),
        case("one line of three", &[second(), third()], &[5], 9, 1),
        case("each line of three", &[second(), third()], &[1, 6, 7, 9], 9, 4),
        case("lines of other increments", &[second_up, third_down], &[3, 4, 5, 8], 15, 8),
        case("lines of other increments, another record", &[second_up, record_12], &[3, 4], 21, 7),
        case("all nine", &[second_up, third_down], &[1, 2, 3, 4, 5, 6, 7, 8, 9], 15, 15),
        case("none that is covered", &[second()], &[7, 8, 9], 6, 0),
        both("two shots", two_shots, with_dead([3, 2, 2, 5], 2)),
    ]
    .concat()
}

/// Killed receivers between those that are covered, and others between killed ones.
fn among_others() -> Vec<Case> {
    let marked = killing(set_a(), &[1, 3]).insert(R, below(2), marker(R));
    let no_line = |line| between().remove(X, line);
    let names = |names: [&str; 3]| {
        let lines = names.map(|name| [101, 102].map(|point| receiver(point).name(name)));
        let set = (0..3).fold(set_a(), |set, _| set.remove(R, first())).add_all(R, lines.concat());
        set.edit(X, first(), |x| x.channels(1, 2).receivers(101, 102).receiver_name(names[1]))
    };
    let three_names = names(["L 1", "L1", "L1 1"]);
    let only = |lines: &[usize]| killing(three_names.clone(), lines);
    let nine = |killed: usize| {
        let points =
            [101, 102].map(|point| (1..=9).map(move |i: u8| receiver(point).index(&i.to_string())));
        let set = (0..3).fold(set_a(), |set, _| set.remove(R, first()));
        let set = set.add_all(R, points.into_iter().flatten());
        let set =
            set.edit(X, first(), |x| x.channels(1, 2).receivers(101, 102).receiver_index("5"));
        killing(set, &[killed, killed + 9])
    };
    [
        both("a marker between", marked, as_a_with(2)),
        both("other indices between", between(), with_dead([6, 1, 2, 9], 6)),
        both("other indices alone between", no_line(below(2)), with_dead([6, 1, 1, 3], 0)),
        both("the other indices alone", no_line(first()), with_dead([6, 1, 1, 6], 6)),
        both("one of index 1 too", killing(between(), &[4]), with_dead([6, 1, 2, 9], 7)),
        both(
            "the other indices backwards",
            between().edit(X, below(2), |_| of_index_2().receivers(102, 101)),
            with_dead([6, 1, 2, 9], 6),
        ),
        both("other names before and behind", only(&[1, 2, 5, 6]), accepted(6, 1, 1, 2)),
        both("the name itself", only(&[3, 4]), with_dead([6, 1, 1, 2], 2)),
        both("a name and another", only(&[2, 4, 5]), with_dead([6, 1, 1, 2], 1)),
        both("nine indices, the one before", nine(4), accepted(18, 1, 1, 2)),
        both("nine indices, the one itself", nine(5), with_dead([18, 1, 1, 2], 2)),
        both("nine indices, the one behind", nine(6), accepted(18, 1, 1, 2)),
    ]
    .concat()
}

/// Killed receivers are in order (10), are there (18) and are covered once (19).
fn judged() -> Vec<Case> {
    let late = killing(set_a(), &[3]).edit(R, below(3), |r| r.point(102));
    let twice = killing(set_a(), &[3]).add(X, relation().channels(4, 4).receivers(103, 103));
    let twice_down = killing(with(&[second().receivers(104, 102)]), &[2]);
    let lacks = killing(set_a(), &[1, 3]).remove(R, below(2));
    let other_index = set_a().edit(R, below(2), |r| dead(r).index("2"));
    let free = set_a().edit(R, below(2), |r| dead(r).at(29, "text"));
    [
        both("10: a killed receiver not above", late, refused(10, R, below(3), 2)),
        both(
            "10: below a killed receiver",
            set_a().edit(R, below(2), |r| dead(r).point(104)),
            refused(10, R, below(3), 2),
        ),
        both(
            "10: a receiver again, killed",
            set_a().insert(R, below(3), dead(receiver(102))),
            refused(10, R, below(3), 2),
        ),
        both("18: between killed receivers", lacks, refused(18, X, first(), 64)),
        both("18: killed, of index 2", other_index, refused(18, X, first(), 64)),
        both("19: a killed receiver", twice, refused(19, X, below(2), 64)),
        both("19: a killed receiver, backwards", twice_down, refused(19, X, below(2), 64)),
        both("5: text in a killed receiver", free, refused(5, R, below(2), 29)),
        both("blank index", killing(set_a(), &[2]).put(R, below(2), 26, " "), as_a_with(1)),
        both("code `kl`", set_a().put(R, below(2), 27, "kl"), refused(5, R, below(2), 27)),
    ]
    .concat()
}

/// As many receivers as there can be, and as many channels.
fn many() -> Vec<Case> {
    let most = most_below() as u32;
    let wide = |components: &str, receivers: u32, kills: fn(u32) -> bool| {
        let of = |point| if kills(point) { dead(receiver(point)) } else { receiver(point) };
        let channels = receivers * components.parse::<u32>().expect("a digit");
        let set = (0..3).fold(set_a(), |set: Set, _| set.remove(R, first()));
        set.add_all(R, (1..=receivers).map(of)).edit(X, first(), |x| {
            x.channels(1, channels).increment(components).receivers(1, receivers)
        })
    };
    let case = |name: &str, set: Set, counts: [u32; 2], dead| {
        let [receivers, traces] = counts.map(u64::from);
        both(name, set, with_dead([receivers, 1, 1, traces], dead))
    };
    [
        case(
            "1,111 receivers of nine components",
            wide("9", 1_111, |_| true),
            [1_111, 9_999],
            9_999,
        ),
        case("every third of 1,111", wide("9", 1_111, |n| n % 3 == 0), [1_111, 9_999], 3_330),
        case("the last of 1,111", wide("9", 1_111, |n| n == 1_111), [1_111, 9_999], 9),
        case("all but one line", wide("1", most - 1, |_| true), [most - 1; 2], u64::from(most) - 1),
        case(
            "every second",
            wide("1", most - 1, |n| n % 2 == 0),
            [most - 1; 2],
            u64::from(most - 1) / 2,
        ),
    ]
    .concat()
}
