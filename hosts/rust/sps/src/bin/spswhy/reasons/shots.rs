//! 13 to 15: the shot of a relation line, and the relation line of a shot.

use super::stations::{marker, names, stations, Place};
use super::{Case, Told};
use crate::files::Judged;
use crate::rows::set::*;
use crate::words::list;
use sps::{Point, PointState};

type Line = (u64, Point);

/// 13: a killed shot, or what stands in S near the source.
pub fn no_shot<'a>(case: &Case<'a>) -> Option<Told<'a>> {
    let [_, s, x] = case.set()?;
    let source = Place::source(&x.relation(case.line())?);
    let shots = stations(s);
    if let Some((line, _)) = shots.iter().find(|(_, point)| Place::of(point) == source) {
        let told = Told::of(SHOT_KILLED, [THAT_SHOT_KILLED.with(&[line])]);
        return Some(told.beside(s, *line, 27, KILLED));
    }
    let of_name = shots.iter().filter(|(_, point)| point.name == source.name);
    let of_name: Vec<&Line> = of_name.collect();
    let own = of_name.iter().filter(|(_, point)| point.number == source.number);
    let own = own.min_by_key(|(_, point)| is_killed(point));
    let marker = marker(s, source);
    let (found, near) = match (own, marker) {
        (Some((line, point)), _) if is_killed(point) => {
            (S_HAS_KILLED.with(&[&point.index]), vec![*line])
        }
        (Some((line, point)), _) => (S_HAS_INDEX.with(&[&point.index]), vec![*line]),
        (None, Some(line)) => (S_MARKER.with(&[&line]), vec![line]),
        (None, None) if of_name.is_empty() => (NO_NAME_IN_S.with(&[&names(&shots)]), Vec::new()),
        (None, None) => nearest(&of_name, source.number),
    };
    let told = Told::of(NO_SHOT, [NOT_IN_S.with(&[&source]), found]);
    let what = |line| if Some(line) == marker { S_MARKER_LINE } else { NEAR_SHOT };
    Some(near.into_iter().fold(told, |told, line| told.beside(s, line, 2, what(line))))
}

fn is_killed(shot: &Point) -> bool {
    shot.state == PointState::Killed
}

/// The shots just below and just above a number, and their lines.
fn nearest(shots: &[&Line], number: u64) -> (String, Vec<u64>) {
    let of = |(_, point): &&&Line| point.number;
    let below = shots.iter().filter(|shot| of(shot) < number).max_by_key(of);
    let above = shots.iter().filter(|shot| of(shot) > number).min_by_key(of);
    let near: Vec<&Line> = below.into_iter().chain(above).copied().collect();
    let told = near.iter().map(|(line, point)| {
        let killed = if is_killed(point) { ", killed" } else { "" };
        format!("{} (S line {line}{killed})", point.number)
    });
    let told: Vec<String> = told.collect();
    (NEAREST.with(&[&list(&told)]), near.iter().map(|(line, _)| *line).collect())
}

/// 14: where both shots stand.
pub fn order<'a>(case: &Case<'a>) -> Option<Told<'a>> {
    let [_, s, x] = case.set()?;
    let before = case.line().checked_sub(1)?;
    let [own, other] = [case.line(), before].map(|line| x.relation(line));
    let [own, other] = [Place::source(&own?), Place::source(&other?)];
    let shots = stations(s);
    let line = |place| shots.iter().find(|(_, point)| Place::of(point) == place).map(|of| of.0);
    let found = STANDS_BEFORE.with(&[&own, &line(own)?, &other, &line(other)?]);
    Some(Told::of(SHOT_ORDER, [found]).beside(x, before, 14, RELATION_BEFORE))
}

/// 15: the shot, and which lines name the live shots beside it.
pub fn not_named<'a>(case: &Case<'a>) -> Option<Told<'a>> {
    let [_, s, x] = case.set()?;
    let live: Vec<Line> = s.points().filter(|(_, of)| of.state == PointState::Live).collect();
    let at = live.iter().position(|(line, _)| *line == case.line())?;
    let own = Place::of(&live[at].1);
    let mut told = Told::of(SHOT_NOT_NAMED, [NOT_NAMED.with(&[&own])]);
    if let Some((shot, point)) = at.checked_sub(1).and_then(|at| live.get(at)) {
        if let Some(line) = named_by(x, Place::of(point)).next_back() {
            told.found.push(BEFORE_NAMED.with(&[shot, &line]));
            told = told.beside(x, line, 14, OF_BEFORE);
        }
    }
    if let Some((shot, point)) = live.get(at + 1) {
        match named_by(x, Place::of(point)).next() {
            Some(line) => {
                told.found.push(AFTER_NAMED.with(&[shot, &line]));
                told = told.beside(x, line, 14, OF_AFTER);
            }
            None => told.found.push(AFTER_NOT_NAMED.with(&[shot])),
        }
    }
    Some(told)
}

/// The lines of X that name a shot.
fn named_by(x: &Judged, shot: Place) -> impl DoubleEndedIterator<Item = u64> + '_ {
    let lines = x.relations().filter(move |(_, relation)| Place::source(relation) == shot);
    lines.map(|(line, _)| line)
}
