//! 18 and 19: the receivers that a relation line covers.

use super::records::same_record;
use super::stations::{marker, names, stations, Place};
use super::{Case, Told};
use crate::rows::set::*;
use sps::Relation;
use std::collections::{HashMap, HashSet};

/// The receivers that a line covers, from its first, each with its first channel.
fn covered(of: Relation) -> impl Iterator<Item = (u64, Place)> {
    let numbers = 0..=of.from_receiver.abs_diff(of.to_receiver);
    numbers.map(move |step| {
        let number = match of.from_receiver <= of.to_receiver {
            true => of.from_receiver + step,
            false => of.from_receiver - step,
        };
        let place = Place { name: of.receiver_name, number, index: of.receiver_index };
        (of.from_channel + step * of.channel_increment, place)
    })
}

/// 18: the first receiver that R lacks, and what R has in its stead.
pub fn missing<'a>(case: &Case<'a>) -> Option<Told<'a>> {
    let [r, _, x] = case.set()?;
    let relation = x.relation(case.line())?;
    let receivers = stations(r);
    let known: HashSet<Place> = receivers.iter().map(|(_, point)| Place::of(point)).collect();
    let (_, lacking) = covered(relation).find(|(_, place)| !known.contains(place))?;
    let ends = [relation.from_receiver, relation.to_receiver];
    let mut told = Told::of(NO_RECEIVER, [NOT_IN_R.with(&[&lacking, &ends[0], &ends[1]])]);
    let of_name = |name: [u8; 16]| receivers.iter().filter(move |(_, point)| point.name == name);
    let same = |number| of_name(lacking.name).find(move |(_, point)| point.number == number);
    if let Some(line) = marker(r, lacking) {
        told.found.push(R_MARKER.with(&[&line]));
        told = told.beside(r, line, 27, NEAR_RECEIVER);
    } else if let Some((line, point)) = same(lacking.number) {
        told.found.push(R_HAS_INDEX.with(&[&point.index]));
        told = told.beside(r, *line, 26, NEAR_RECEIVER);
    } else if of_name(lacking.name).next().is_none() {
        told.found.push(NO_NAME_IN_R.with(&[&names(&receivers)]));
    }
    Some(told)
}

/// 19: the first receiver that an earlier line of the record covers, and that line.
pub fn covered_twice<'a>(case: &Case<'a>) -> Option<Told<'a>> {
    let [.., x] = case.set()?;
    let own = x.relation(case.line())?;
    let above = x.relations().take_while(|(line, _)| *line < case.line());
    let mut before = HashMap::new();
    for (line, relation) in above.filter(|(_, relation)| same_record(relation, &own)) {
        for (channel, place) in covered(relation) {
            before.entry(place).or_insert((channel, line));
        }
    }
    let again = |(channel, place)| Some((channel, place, *before.get(&place)?));
    let (channel, place, (other, line)) = covered(own).find_map(again)?;
    let told = Told::of(COVERED_TWICE, [COVERED.with(&[&place, &channel, &other, &line])]);
    Some(told.beside(x, line, 64, COVERS))
}
