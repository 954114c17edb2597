//! 16 to 19: the relation lines of a record.

use super::hold;
use crate::tape;
use small_sets::place::{below, first};
use small_sets::File::{R, S, X};
use small_sets::{receiver, relation, set_a, shot, Line};

/// Set A's record goes on with one receiver.
fn goes_on(channel: u32, receiver: u32) -> Line {
    relation().channels(channel, channel).receivers(receiver, receiver)
}

#[test]
fn a_record_apart() {
    let set = set_a().add(X, relation().record(12)).add(X, relation());
    let expected = "\
set.x01:27:2: refused with 16: the relation lines of a record do not stand together
line 25 is of tape 100 record 11 too; line 26 between them is of tape 100 record 12
X100     1111L1                   5011   1   31L1                   101     1031
 ^
set.x01:25:2: the earlier line of that record
X100     1111L1                   5011   1   31L1                   101     1031
 ^
";
    hold("relations_a_record_apart", &set, "REFUSED 16 X 27 2", expected);
}

#[test]
fn a_record_far_apart() {
    let set = tape(
        &set_a().add(X, relation().tape("A B")).add(X, relation().record(0)).add(X, relation()),
    );
    let expected = "\
set.x01:28:2: refused with 16: the relation lines of a record do not stand together
line 25 is of tape 100 record 11 too; line 27 between them is of tape 100 record 0
X100     1111L1                   5011   1   31L1                   101     1031
 ^
set.x01:25:2: the earlier line of that record
X100     1111L1                   5011   1   31L1                   101     1031
 ^
";
    hold("relations_a_record_far_apart", &set, "REFUSED 16 X 28 2", expected);
}

#[test]
fn another_source() {
    let set = set_a().add(S, shot(502)).add(R, receiver(104)).add(X, goes_on(4, 104).source(502));
    let expected = "\
set.x01:26:2: refused with 16: a relation line differs from the line before it, of the same tape and record
source L1 502 index 1; line 25 has L1 501 index 1
X100     1111L1                   5021   4   41L1                   104     1041
 ^
set.x01:25:14: the line before it, of the same tape and record
X100     1111L1                   5011   1   31L1                   101     1031
             ^
";
    hold("relations_another_source", &set, "REFUSED 16 X 26 2", expected);
}

#[test]
fn another_increment_and_instrument() {
    let set = set_a()
        .naming(&["2"])
        .add(R, receiver(104))
        .add(X, goes_on(4, 104).record_increment("2").instrument("2"));
    let expected = "\
set.x01:27:2: refused with 16: a relation line differs from the line before it, of the same tape and record
record increment 2; line 26 has 1
instrument 2; line 26 has 1
X100     1122L1                   5011   4   41L1                   104     1041
 ^
set.x01:26:12: the line before it, of the same tape and record
X100     1111L1                   5011   1   31L1                   101     1031
           ^
";
    hold("relations_another_increment_and_instrument", &set, "REFUSED 16 X 27 2", expected);
}

#[test]
fn the_same_channel() {
    let set = set_a().add(R, receiver(104)).add(X, goes_on(3, 104));
    let expected = "\
set.x01:26:39: refused with 17: the channels do not go on above those of the line before, of the same tape and record
from channel 3 is not above to channel 3 of line 25
X100     1111L1                   5011   3   31L1                   104     1041
                                      ^
set.x01:25:43: the line before it, of the same tape and record
X100     1111L1                   5011   1   31L1                   101     1031
                                          ^
";
    hold("relations_the_same_channel", &set, "REFUSED 17 X 26 39", expected);
}

#[test]
fn a_lower_channel() {
    let set = tape(&set_a().add(R, receiver(104)).add(X, goes_on(1, 104)));
    let expected = "\
set.x01:26:39: refused with 17: the channels do not go on above those of the line before, of the same tape and record
from channel 1 is not above to channel 3 of line 25
X100     1111L1                   5011   1   11L1                   104     1041
                                      ^
set.x01:25:43: the line before it, of the same tape and record
X100     1111L1                   5011   1   31L1                   101     1031
                                          ^
";
    hold("relations_a_lower_channel", &set, "REFUSED 17 X 26 39", expected);
}

#[test]
fn a_receiver_is_not_there() {
    let set = set_a().edit(X, first(), |x| x.channels(1, 4).receivers(101, 104));
    let expected = "\
set.x01:25:64: refused with 18: a covered receiver is not in R
receiver L1 104 index 1 is not in R; this line covers 101 to 104
X100     1111L1                   5011   1   41L1                   101     1041
                                                               ^
";
    hold("relations_a_receiver_is_not_there", &set, "REFUSED 18 X 25 64", expected);
}

#[test]
fn downwards() {
    let set = tape(&set_a().edit(X, first(), |x| x.channels(1, 5).receivers(104, 100)));
    let expected = "\
set.x01:25:64: refused with 18: a covered receiver is not in R
receiver L1 104 index 1 is not in R; this line covers 104 to 100
X100     1111L1                   5011   1   51L1                   104     1001
                                                               ^
";
    hold("relations_downwards", &set, "REFUSED 18 X 25 64", expected);
}

#[test]
fn it_is_a_marker() {
    let set = set_a().edit(R, below(2), |r| r.code("PM"));
    let expected = "\
set.x01:25:64: refused with 18: a covered receiver is not in R
receiver L1 102 index 1 is not in R; this line covers 101 to 103
R line 26 is a marker
X100     1111L1                   5011   1   31L1                   101     1031
                                                               ^
set.r01:26:27: the line of R with that name and number
RL1                   1021PM     0.0   0            0.0       0.0   0.0113071245
                          ^
";
    hold("relations_it_is_a_marker", &set, "REFUSED 18 X 25 64", expected);
}

#[test]
fn it_has_another_index() {
    let set = set_a().edit(R, below(2), |r| r.index("2"));
    let expected = "\
set.x01:25:64: refused with 18: a covered receiver is not in R
receiver L1 102 index 1 is not in R; this line covers 101 to 103
R has it with index 2
X100     1111L1                   5011   1   31L1                   101     1031
                                                               ^
set.r01:26:26: the line of R with that name and number
RL1                   1022G1     0.0   0            0.0       0.0   0.0113071245
                         ^
";
    hold("relations_it_has_another_index", &set, "REFUSED 18 X 25 64", expected);
}

#[test]
fn it_has_another_name() {
    let set = (1..=3).fold(set_a(), |set, n| set.edit(R, below(n), |r| r.name("1   12"))).edit(
        X,
        first(),
        |x| x.receiver_name("11  2"),
    );
    let expected = "\
set.x01:25:64: refused with 18: a covered receiver is not in R
receiver \"11  2\" 101 index 1 is not in R; this line covers 101 to 103
R has no receiver of that name; it has \"1   12\"
X100     1111L1                   5011   1   3111  2                101     1031
                                                               ^
";
    hold("relations_it_has_another_name", &set, "REFUSED 18 X 25 64", expected);
}

#[test]
fn a_receiver_again() {
    let set = set_a().add(R, receiver(104)).add_all(X, [goes_on(4, 104), goes_on(5, 102)]);
    let expected = "\
set.x01:27:64: refused with 19: a covered receiver is covered by an earlier line of the same tape and record
receiver L1 102 index 1 is covered by channel 5 of this line, and by channel 2 of line 25
X100     1111L1                   5011   5   51L1                   102     1021
                                                               ^
set.x01:25:64: the line that covers it before
X100     1111L1                   5011   1   31L1                   101     1031
                                                               ^
";
    hold("relations_a_receiver_again", &set, "REFUSED 19 X 27 64", expected);
}

#[test]
fn components_again() {
    let set = set_a()
        .edit(X, first(), |x| x.increment("3").channels(1, 9))
        .add(X, relation().increment("2").channels(10, 13).receivers(103, 102));
    let expected = "\
set.x01:26:64: refused with 19: a covered receiver is covered by an earlier line of the same tape and record
receiver L1 103 index 1 is covered by channel 10 of this line, and by channel 7 of line 25
X100     1111L1                   5011  10  132L1                   103     1021
                                                               ^
set.x01:25:64: the line that covers it before
X100     1111L1                   5011   1   93L1                   101     1031
                                                               ^
";
    hold("relations_components_again", &set, "REFUSED 19 X 26 64", expected);
}
