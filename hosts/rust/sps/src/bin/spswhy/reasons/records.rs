//! 16 and 17: the relation lines of a record.

use super::stations::Place;
use super::{Case, Told};
use crate::rows::set::*;
use crate::words::clear;
use sps::Relation;

/// Whether two lines are of one tape and record.
pub fn same_record(one: &Relation, other: &Relation) -> bool {
    (one.tape, one.record) == (other.tape, other.record)
}

/// 16: an earlier line that the line just before separates, or what differs from it.
pub fn record<'a>(case: &Case<'a>) -> Option<Told<'a>> {
    let [.., x] = case.set()?;
    let own = x.relation(case.line())?;
    let line = case.line().checked_sub(1)?;
    let before = x.relation(line)?;
    if same_record(&own, &before) {
        return differs(case, &own, &before);
    }
    let above = (1..line).rev().filter_map(|line| Some((line, x.relation(line)?)));
    let (earlier, _) = above.into_iter().find(|(_, relation)| same_record(&own, relation))?;
    let [tape, other] = [own.tape, before.tape].map(|tape| clear(&tape));
    let found = APART.with(&[&earlier, &tape, &own.record, &line, &other, &before.record]);
    Some(Told::of(RECORD_APART, [found]).beside(x, earlier, 2, EARLIER_OF_RECORD))
}

/// What a line has otherwise than the line just before, and where that has it.
fn differs<'a>(case: &Case<'a>, own: &Relation, before: &Relation) -> Option<Told<'a>> {
    let line = case.line() - 1;
    let sources = [own, before].map(Place::source);
    let increments = [own.record_increment, before.record_increment];
    let instruments = [own.instrument, before.instrument];
    let mut found = Vec::new();
    if sources[0] != sources[1] {
        found.push((14, SOURCE_DIFFERS.with(&[&sources[0], &line, &sources[1]])));
    }
    if increments[0] != increments[1] {
        found.push((12, RECORD_INCREMENT.with(&[&increments[0], &line, &increments[1]])));
    }
    if instruments[0] != instruments[1] {
        found.push((13, INSTRUMENT.with(&[&instruments[0], &line, &instruments[1]])));
    }
    let (column, _) = *found.first()?;
    let told = Told::of(RECORD_DIFFERS, found.into_iter().map(|(_, sentence)| sentence));
    Some(told.beside(case.judged, line, column, BEFORE_OF_RECORD))
}

/// 17: the channels of the line and of the one just before.
pub fn channels<'a>(case: &Case<'a>) -> Option<Told<'a>> {
    let [.., x] = case.set()?;
    let line = case.line().checked_sub(1)?;
    let (own, before) = (x.relation(case.line())?, x.relation(line)?);
    let found = NOT_ABOVE.with(&[&own.from_channel, &before.to_channel, &line]);
    Some(Told::of(CHANNEL_ORDER, [found]).beside(x, line, 43, BEFORE_OF_RECORD))
}
