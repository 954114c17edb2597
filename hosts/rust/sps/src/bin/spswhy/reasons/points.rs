//! 10 to 12: a receiver or a shot beside the line that it does not fit.

use super::stations::{stations, Place};
use super::{Case, Told};
use crate::rows::set::*;
use crate::words::{name, quoted};
use sps::{Medium, Point};

/// The point of the line, and those above it.
fn above(case: &Case) -> Option<(Point, Vec<(u64, Point)>)> {
    let mut above = stations(case.judged);
    let at = above.iter().position(|(line, _)| *line == case.line())?;
    above.truncate(at + 1);
    let (_, own) = above.pop()?;
    Some((own, above))
}

/// 10: by what the receiver is not above the one before it.
pub fn order<'a>(case: &Case<'a>) -> Option<Told<'a>> {
    let (own, above) = above(case)?;
    let (line, before) = *above.last()?;
    let found = if own.name != before.name {
        let names = [own.name, before.name].map(|of| quoted(name(&of).as_bytes()));
        let words = match case.judged.medium {
            Medium::Disc => NAME_BEFORE,
            Medium::Tape => NAME_BEFORE_ON_TAPE,
        };
        words.with(&[&names[0], &names[1]])
    } else if own.number != before.number {
        POINT_BELOW.with(&[&own.number, &before.number, &line])
    } else if own.index != before.index {
        INDEX_BELOW.with(&[&own.index, &before.index, &line])
    } else {
        THE_SAME.with(&[&line])
    };
    Some(Told::of(RECEIVER_ORDER, [found]).beside(case.judged, line, 2, RECEIVER_BEFORE))
}

/// 11: the moments of the shot and of the one before it.
pub fn earlier<'a>(case: &Case<'a>) -> Option<Told<'a>> {
    let (own, above) = above(case)?;
    let (line, before) = *above.last()?;
    let [time, other] = [own.time, before.time].map(|time| format!("{time:06}"));
    let found = EARLIER.with(&[&own.day, &time, &before.day, &other, &line]);
    Some(Told::of(SHOT_EARLIER, [found]).beside(case.judged, line, 72, SHOT_BEFORE))
}

/// 12: the shot above that is the same.
pub fn repeated<'a>(case: &Case<'a>) -> Option<Told<'a>> {
    let (own, above) = above(case)?;
    let place = Place::of(&own);
    let (line, _) = *above.iter().find(|(_, point)| Place::of(point) == place)?;
    let found = SHOT_AS.with(&[&place, &line]);
    Some(Told::of(SHOT_REPEATED, [found]).beside(case.judged, line, 2, REPEATED))
}
