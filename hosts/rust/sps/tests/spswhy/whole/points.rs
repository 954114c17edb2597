//! 10 to 12: receivers and shots.

use super::hold;
use crate::tape;
use small_sets::place::below;
use small_sets::File::{R, S};
use small_sets::{marker, receiver, set_a, shot};

#[test]
fn names_byte_by_byte() {
    let set = set_a().add(R, receiver(1).name("L9")).add(R, receiver(1).name("L10"));
    let expected = "\
set.r01:29:2: refused with 10: a receiver is not above the receiver line before it, by line name, point number and index
\"L10\" stands before \"L9\": names compare byte by byte
RL10                    11G1     0.0   0            0.0       0.0   0.0113071245
 ^
set.r01:28:2: the receiver line before it
RL9                     11G1     0.0   0            0.0       0.0   0.0113071245
 ^
";
    hold("points_names_byte_by_byte", &set, "REFUSED 10 R 29 2", expected);
}

#[test]
fn names_on_tape() {
    let set = tape(&set_a().add(R, receiver(1).name("1L")).add(R, receiver(1).name("M1")));
    let expected = "\
set.r01:29:2: refused with 10: a receiver is not above the receiver line before it, by line name, point number and index
\"M1\" stands before \"1L\": names compare by the tape's own bytes, letters before digits
RM1                     11G1     0.0   0            0.0       0.0   0.0113071245
 ^
set.r01:28:2: the receiver line before it
R1L                     11G1     0.0   0            0.0       0.0   0.0113071245
 ^
";
    hold("points_names_on_tape", &set, "REFUSED 10 R 29 2", expected);
}

#[test]
fn the_same() {
    let set = set_a().add(R, receiver(103).index(" "));
    let expected = "\
set.r01:28:2: refused with 10: a receiver is not above the receiver line before it, by line name, point number and index
the same as line 27
RL1                   103 G1     0.0   0            0.0       0.0   0.0113071245
 ^
set.r01:27:2: the receiver line before it
RL1                   1031G1     0.0   0            0.0       0.0   0.0113071245
 ^
";
    hold("points_the_same", &set, "REFUSED 10 R 28 2", expected);
}

#[test]
fn a_point_below() {
    let set = set_a().edit(R, below(2), |r| r.point(103)).edit(R, below(3), |r| r.point(102));
    let expected = "\
set.r01:27:2: refused with 10: a receiver is not above the receiver line before it, by line name, point number and index
point 102 is below 103 of line 26
RL1                   1021G1     0.0   0            0.0       0.0   0.0113071245
 ^
set.r01:26:2: the receiver line before it
RL1                   1031G1     0.0   0            0.0       0.0   0.0113071245
 ^
";
    hold("points_a_point_below", &set, "REFUSED 10 R 27 2", expected);
}

#[test]
fn an_index_below() {
    let set = set_a().edit(R, below(2), |r| r.index("2")).insert(R, below(3), marker(R)).insert(
        R,
        below(4),
        receiver(102),
    );
    let expected = "\
set.r01:28:2: refused with 10: a receiver is not above the receiver line before it, by line name, point number and index
index 1 is below 2 of line 26
RL1                   1021G1     0.0   0            0.0       0.0   0.0113071245
 ^
set.r01:26:2: the receiver line before it
RL1                   1022G1     0.0   0            0.0       0.0   0.0113071245
 ^
";
    hold("points_an_index_below", &set, "REFUSED 10 R 28 2", expected);
}

#[test]
fn a_day_earlier() {
    let set = set_a().add(S, shot(502).day(112).time("235959"));
    let expected = "\
set.s01:26:72: refused with 11: a shot is earlier, by day then time, than the shot line before it
day 112 time 235959 is earlier than day 113 time 071245 of line 25
SL1                   5021V1     0.0   0            0.0       0.0   0.0112235959
                                                                       ^
set.s01:25:72: the shot line before it
SL1                   5011V1     0.0   0            0.0       0.0   0.0113071245
                                                                       ^
";
    hold("points_a_day_earlier", &set, "REFUSED 11 S 26 72", expected);
}

#[test]
fn a_time_earlier() {
    let set = set_a().add(S, marker(S)).add(S, shot(502).time("000501"));
    let expected = "\
set.s01:27:72: refused with 11: a shot is earlier, by day then time, than the shot line before it
day 113 time 000501 is earlier than day 113 time 071245 of line 25
SL1                   5021V1     0.0   0            0.0       0.0   0.0113000501
                                                                       ^
set.s01:25:72: the shot line before it
SL1                   5011V1     0.0   0            0.0       0.0   0.0113071245
                                                                       ^
";
    hold("points_a_time_earlier", &set, "REFUSED 11 S 27 72", expected);
}

#[test]
fn a_shot_again() {
    let set = set_a().add(S, shot(502)).add(S, shot(501).index(" "));
    let expected = "\
set.s01:27:2: refused with 12: a shot repeats an earlier shot's line name, point number and index
shot L1 501 index 1 is the same as line 25
SL1                   501 V1     0.0   0            0.0       0.0   0.0113071245
 ^
set.s01:25:2: the shot that it repeats
SL1                   5011V1     0.0   0            0.0       0.0   0.0113071245
 ^
";
    hold("points_a_shot_again", &set, "REFUSED 12 S 27 2", expected);
}

#[test]
fn a_killed_shot_again() {
    let set = tape(&set_a().add(S, shot(501).code("KL")));
    let expected = "\
set.s01:26:2: refused with 12: a shot repeats an earlier shot's line name, point number and index
shot L1 501 index 1 is the same as line 25
SL1                   5011KL     0.0   0            0.0       0.0   0.0113071245
 ^
set.s01:25:2: the shot that it repeats
SL1                   5011V1     0.0   0            0.0       0.0   0.0113071245
 ^
";
    hold("points_a_killed_shot_again", &set, "REFUSED 12 S 26 2", expected);
}
