//! 13 to 15: relation lines and their shots.

use super::hold;
use crate::{of, tape};
use small_sets::place::first;
use small_sets::File::{S, X};
use small_sets::{marker, relation, set_a, shot, Line, Set};

/// Set A whose relation line names another shot.
fn named(source: u32) -> Set {
    set_a().edit(X, first(), |x| x.source(source))
}

/// Record 12, of a shot.
fn second(source: u32) -> Line {
    relation().record(12).source(source)
}

#[test]
fn between_two() {
    let set = named(502).add(S, shot(499)).add(S, shot(505)).add(S, shot(504));
    let expected = "\
set.x01:25:14: refused with 13: no shot is the source of the relation line
shot L1 502 index 1 is not in S
the nearest of that name: 501 (S line 25) and 504 (S line 28)
X100     1111L1                   5021   1   31L1                   101     1031
             ^
set.s01:25:2: a near shot
SL1                   5011V1     0.0   0            0.0       0.0   0.0113071245
 ^
set.s01:28:2: a near shot
SL1                   5041V1     0.0   0            0.0       0.0   0.0113071245
 ^
";
    hold("shots_between_two", &set, "REFUSED 13 X 25 14", expected);
}

#[test]
fn below_all() {
    let set = named(12);
    let expected = "\
set.x01:25:14: refused with 13: no shot is the source of the relation line
shot L1 12 index 1 is not in S
the nearest of that name: 501 (S line 25)
X100     1111L1                    121   1   31L1                   101     1031
             ^
set.s01:25:2: a near shot
SL1                   5011V1     0.0   0            0.0       0.0   0.0113071245
 ^
";
    hold("shots_below_all", &set, "REFUSED 13 X 25 14", expected);
}

#[test]
fn between_a_killed_one_and_a_live_one() {
    let set = tape(&named(502).edit(S, first(), |s| s.code("KL")).add(S, shot(504)));
    let expected = "\
set.x01:25:14: refused with 13: no shot is the source of the relation line
shot L1 502 index 1 is not in S
the nearest of that name: 501 (S line 25, killed) and 504 (S line 26)
X100     1111L1                   5021   1   31L1                   101     1031
             ^
set.s01:25:2: a near shot
SL1                   5011KL     0.0   0            0.0       0.0   0.0113071245
 ^
set.s01:26:2: a near shot
SL1                   5041V1     0.0   0            0.0       0.0   0.0113071245
 ^
";
    hold("shots_between_a_killed_one_and_a_live_one", &set, "REFUSED 13 X 25 14", expected);
}

#[test]
fn another_index_of_a_killed_one() {
    let set = set_a().edit(X, first(), |x| x.source_index("3"));
    let killed = set.edit(S, first(), |s| s.code("KL"));
    let expected = "\
set.x01:25:14: refused with 13: no shot is the source of the relation line
shot L1 501 index 3 is not in S
S has it with index 1, killed
X100     1111L1                   5013   1   31L1                   101     1031
             ^
set.s01:25:2: a near shot
SL1                   5011KL     0.0   0            0.0       0.0   0.0113071245
 ^
";
    hold("shots_another_index_of_a_killed_one", &killed, "REFUSED 13 X 25 14", expected);
    let (status, _, reason) = of("shots_live_too", &killed.add(S, shot(501).index("2")));
    assert_eq!(status, Some(1));
    assert!(reason.contains("\nS has it with index 2\n"), "{reason}");
}

#[test]
fn another_index() {
    let set = set_a().edit(X, first(), |x| x.source_index("2"));
    let expected = "\
set.x01:25:14: refused with 13: no shot is the source of the relation line
shot L1 501 index 2 is not in S
S has it with index 1
X100     1111L1                   5012   1   31L1                   101     1031
             ^
set.s01:25:2: a near shot
SL1                   5011V1     0.0   0            0.0       0.0   0.0113071245
 ^
";
    hold("shots_another_index", &set, "REFUSED 13 X 25 14", expected);
}

#[test]
fn a_marker() {
    let set = set_a().edit(S, first(), |s| s.code("PM"));
    let expected = "\
set.x01:25:14: refused with 13: no shot is the source of the relation line
shot L1 501 index 1 is not in S
S line 25 is a marker
X100     1111L1                   5011   1   31L1                   101     1031
             ^
set.s01:25:2: the marker
SL1                   5011PM     0.0   0            0.0       0.0   0.0113071245
 ^
";
    hold("shots_a_marker", &set, "REFUSED 13 X 25 14", expected);
}

#[test]
fn another_name() {
    let set = set_a().edit(X, first(), |x| x.source_name("l1"));
    let expected = "\
set.x01:25:14: refused with 13: no shot is the source of the relation line
shot l1 501 index 1 is not in S
S has no shot of that name; it has \"L1\"
X100     1111l1                   5011   1   31L1                   101     1031
             ^
";
    hold("shots_another_name", &set, "REFUSED 13 X 25 14", expected);
}

#[test]
fn no_shots() {
    let set = set_a().remove(S, first());
    let expected = "\
set.x01:25:14: refused with 13: no shot is the source of the relation line
shot L1 501 index 1 is not in S
S has no shot of that name; it has none at all
X100     1111L1                   5011   1   31L1                   101     1031
             ^
";
    hold("shots_no_shots", &set, "REFUSED 13 X 25 14", expected);
}

#[test]
fn a_killed_shot() {
    let set = set_a().put(S, first(), 27, "KL");
    let expected = "\
set.x01:25:14: refused with 13: the source of the relation line is a killed shot
that shot is killed (S line 25)
X100     1111L1                   5011   1   31L1                   101     1031
             ^
set.s01:25:27: the killed shot
SL1                   5011KL     0.0   0            0.0       0.0   0.0113071245
                          ^
";
    hold("shots_a_killed_shot", &set, "REFUSED 13 X 25 14", expected);
}

#[test]
fn a_killed_shot_on_tape() {
    let set = tape(&set_a().add(S, shot(502).code("KL")).add(X, second(502).source_index(" ")));
    let expected = "\
set.x01:26:14: refused with 13: the source of the relation line is a killed shot
that shot is killed (S line 26)
X100     1211L1                   502    1   31L1                   101     1031
             ^
set.s01:26:27: the killed shot
SL1                   5021KL     0.0   0            0.0       0.0   0.0113071245
                          ^
";
    hold("shots_a_killed_shot_on_tape", &set, "REFUSED 13 X 26 14", expected);
}

#[test]
fn a_shot_that_stands_before() {
    let set = set_a().insert(S, first(), shot(502)).add(X, second(502));
    let expected = "\
set.x01:26:14: refused with 14: the shot of the relation line stands in S before that of the relation line before it
shot L1 502 index 1 is S line 25; the line before names L1 501 index 1, S line 26
X100     1211L1                   5021   1   31L1                   101     1031
             ^
set.x01:25:14: the relation line before it
X100     1111L1                   5011   1   31L1                   101     1031
             ^
";
    hold("shots_a_shot_that_stands_before", &set, "REFUSED 14 X 26 14", expected);
}

#[test]
fn a_shot_that_stands_far_before() {
    let set = tape(
        &set_a()
            .add(S, shot(502))
            .add(S, shot(503))
            .edit(X, first(), |x| x.source(503))
            .add(X, second(501)),
    );
    let expected = "\
set.x01:26:14: refused with 14: the shot of the relation line stands in S before that of the relation line before it
shot L1 501 index 1 is S line 25; the line before names L1 503 index 1, S line 27
X100     1211L1                   5011   1   31L1                   101     1031
             ^
set.x01:25:14: the relation line before it
X100     1111L1                   5031   1   31L1                   101     1031
             ^
";
    hold("shots_a_shot_that_stands_far_before", &set, "REFUSED 14 X 26 14", expected);
}

#[test]
fn a_shot_before() {
    let set = set_a().insert(S, first(), shot(500));
    let expected = "\
set.s01:25:1: refused with 15: no relation line names this shot
shot L1 500 index 1 needs a relation line
the shot after it, S line 26, is named by X line 25
SL1                   5001V1     0.0   0            0.0       0.0   0.0113071245
^
set.x01:25:14: the relation line of the shot after it
X100     1111L1                   5011   1   31L1                   101     1031
             ^
";
    hold("shots_a_shot_before", &set, "REFUSED 15 S 25 1", expected);
}

#[test]
fn a_shot_between() {
    let set = set_a()
        .add(S, shot(502).code("KL"))
        .add(S, shot(503))
        .add(S, marker(S))
        .add(S, shot(504))
        .add(X, second(504));
    let expected = "\
set.s01:27:1: refused with 15: no relation line names this shot
shot L1 503 index 1 needs a relation line
the shot before it, S line 25, is named by X line 25
the shot after it, S line 29, is named by X line 26
SL1                   5031V1     0.0   0            0.0       0.0   0.0113071245
^
set.x01:25:14: the relation line of the shot before it
X100     1111L1                   5011   1   31L1                   101     1031
             ^
set.x01:26:14: the relation line of the shot after it
X100     1211L1                   5041   1   31L1                   101     1031
             ^
";
    hold("shots_a_shot_between", &set, "REFUSED 15 S 27 1", expected);
}

#[test]
fn two_shots_behind() {
    let set = tape(&set_a().add(S, shot(502)).add(S, shot(503)));
    let expected = "\
set.s01:26:1: refused with 15: no relation line names this shot
shot L1 502 index 1 needs a relation line
the shot before it, S line 25, is named by X line 25
the shot after it, S line 27, is not named either
SL1                   5021V1     0.0   0            0.0       0.0   0.0113071245
^
set.x01:25:14: the relation line of the shot before it
X100     1111L1                   5011   1   31L1                   101     1031
             ^
";
    hold("shots_two_shots_behind", &set, "REFUSED 15 S 26 1", expected);
}
