//! Killed points (KL): receivers whose traces are dead, and shots that no relation line names.

mod answers;
mod receivers;
mod shots;

use super::answers::of;
use super::write::check;
use crate::line::{marker, receiver, relation, shot, Line};
use crate::place::{below, first};
use crate::table::paper::three_components;
use crate::File::{R, S, X};
use crate::{set_a, Answer, Case, Question, Set};

pub fn cases() -> Vec<Case> {
    [receivers::cases(), answers::cases(), shots::cases()].concat()
}

/// A point that is killed.
fn dead(line: Line) -> Line {
    line.code("KL")
}

/// A set with the receivers in these lines below the header killed.
fn killing(set: Set, lines: &[usize]) -> Set {
    lines.iter().fold(set, |set, &line| set.edit(R, below(line), dead))
}

/// Three components of each receiver, and 102 is killed.
pub fn killed_receiver() -> Set {
    killing(three_components(), &[2])
}

/// Set A with a shot 502 that is killed.
pub fn killed_shot() -> Set {
    set_a().add(S, dead(shot(502)))
}

/// Set A with its shot killed.
pub fn killed_shot_named() -> Set {
    set_a().edit(S, first(), dead)
}

/// Both the receiver and the second shot.
pub fn killed() -> Set {
    killed_receiver().add(S, dead(shot(502)))
}

/// The lines of R: 101, 101 index 2 killed, a marker, 102, 102 index 2 killed, 103, 102 of another
/// name killed. Three channels lead to those of index 1, six to those of index 2.
pub fn between() -> Set {
    let other_index = |point| dead(receiver(point).index("2"));
    set_a()
        .insert(R, below(2), other_index(101))
        .insert(R, below(3), marker(R))
        .insert(R, below(5), other_index(102))
        .add(R, dead(receiver(102).name("L2")))
        .add(X, of_index_2())
}

/// Three components of 101 and 102, index 2.
fn of_index_2() -> Line {
    relation().channels(11, 16).increment("3").receivers(101, 102).receiver_index("2")
}

/// Its tape; characters that no tape holds stand in free columns alone.
fn on_tape(set: &Set) -> Set {
    set.clone().plain().on_tape().expect("characters of a tape")
}

/// A set on disc and on tape, which are judged alike.
fn both(name: &str, set: Set, expected: Answer) -> Vec<Case> {
    let name = format!("killed: {name}");
    let tape = check(format!("{name}, on tape"), on_tape(&set), expected.clone());
    vec![check(name, set, expected), tape]
}

/// Questions of a set on disc and on tape, which are answered alike.
fn asked(name: &str, set: Set, rows: Vec<(Question, Answer)>) -> Vec<Case> {
    let name = format!("killed, {name}");
    let tape = of(&format!("{name}, on tape"), on_tape(&set), rows.clone());
    [of(&name, set, rows), tape].concat()
}
