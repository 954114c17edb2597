//! 13 to 19.

use super::facts::{
    place, place_of, points, relation, relations, source_of, text, told, Place, Points,
};
use super::made::{medium, Refused};
use super::Claims;
use naive::{PointValues, RelationValues};
use small_sets::File::{self, R, S, X};
use std::collections::BTreeSet;

/// A marker with the name, the index and, in its free columns, the number of a point.
fn marker(refused: &Refused, file: File, (name, number, index): Place) -> Option<u32> {
    let set = &refused.set;
    let is_it = |line: &u32| {
        let at = naive::point_at(medium(set), file.kind(), set.file(file), (*line).into());
        let Ok(point) = at else { return false };
        let text = crate::message::shown(set, file as u8, *line);
        let free = text[17..25].trim_start_matches(' ').parse::<u64>();
        let same = (point.state, point.name, point.index) == (PointValues::MARKER, name, index);
        same && free == Ok(number)
    };
    (1..=set.lines(file) as u32).find(is_it)
}

/// The names that a file has instead.
fn names(of: &Points) -> String {
    let all: BTreeSet<[u8; 16]> = of.iter().map(|(_, point)| point.name).collect();
    let quoted = |name: &[u8; 16]| format!("\"{}\"", String::from_utf8_lossy(name).trim_end());
    let told: Vec<String> = all.iter().take(3).map(quoted).collect();
    match (&told[..], all.len()) {
        ([], _) => "none at all".to_owned(),
        ([one], _) => one.clone(),
        (some, 4..) => format!("{} and {} more", some.join(", "), all.len() - 3),
        ([some @ .., last], _) => format!("{} and {last}", some.join(", ")),
    }
}

pub fn no_shot(refused: &Refused) -> Claims {
    let (own, _) = relation(refused);
    let (source, shots) = (source_of(&own), points(refused, S));
    if let Some((line, shot)) = shots.iter().find(|(_, point)| place_of(point) == source) {
        assert_eq!(shot.state, PointValues::KILLED);
        return Claims::of([format!("that shot is killed (S line {line})")]).beside(S, *line, 27);
    }
    let of_name: Vec<_> = shots.iter().filter(|(_, point)| point.name == source.0).collect();
    let first = format!("shot {} is not in S", place(&source));
    let same: Vec<_> = of_name.iter().filter(|(_, point)| point.number == source.1).collect();
    let live = same.iter().find(|(_, point)| point.state == PointValues::LIVE);
    if let Some((line, point)) = live.or(same.first()) {
        let killed = if live.is_none() { ", killed" } else { "" };
        let found = [first, format!("S has it with index {}{killed}", point.index)];
        return Claims::of(found).beside(S, *line, 2);
    }
    if let Some(line) = marker(refused, S, source) {
        return Claims::of([first, format!("S line {line} is a marker")]).beside(S, line, 2);
    }
    if of_name.is_empty() {
        return Claims::of([
            first,
            format!("S has no shot of that name; it has {}", names(&shots)),
        ]);
    }
    nearest(first, &shots, source)
}

/// The last shot of the next number below, and the first of the next above.
fn nearest(first: String, shots: &Points, (name, number, _): Place) -> Claims {
    let lines = |of: &u64| {
        let same = shots.iter().filter(|(_, point)| (point.name, point.number) == (name, *of));
        same.map(|(line, _)| *line).collect::<Vec<u32>>()
    };
    let numbers = shots.iter().filter(|(_, point)| point.name == name).map(|(_, of)| of.number);
    let numbers: BTreeSet<u64> = numbers.collect();
    let below =
        numbers.range(..number).next_back().map(|of| (*of, *lines(of).last().expect("one")));
    let above = numbers.range(number..).next().map(|of| (*of, lines(of)[0]));
    let near: Vec<(u64, u32)> = below.into_iter().chain(above).collect();
    let told = near.iter().map(|(of, line)| {
        let (_, shot) = shots.iter().find(|(of, _)| of == line).expect("the line of a shot");
        match shot.state {
            PointValues::KILLED => format!("{of} (S line {line}, killed)"),
            _ => format!("{of} (S line {line})"),
        }
    });
    let told: Vec<String> = told.collect();
    let claims = Claims::of([first, format!("the nearest of that name: {}", told.join(" and "))]);
    near.iter().fold(claims, |claims, (_, line)| claims.beside(S, *line, 2))
}

pub fn order(refused: &Refused) -> Claims {
    let (own, above) = relation(refused);
    let (line, before) = &above[0];
    assert_eq!(line + 1, refused.line);
    let shots = points(refused, S);
    let line_of =
        |of: Place| shots.iter().find(|(_, point)| place_of(point) == of).expect("a shot").0;
    let [own, before] = [&own, before].map(source_of);
    assert!(line_of(own) < line_of(before));
    let found = format!(
        "shot {} is S line {}; the line before names {}, S line {}",
        place(&own),
        line_of(own),
        place(&before),
        line_of(before)
    );
    Claims::of([found]).beside(X, *line, 14)
}

pub fn not_named(refused: &Refused) -> Claims {
    let mut live = points(refused, S);
    live.retain(|(_, point)| point.state == PointValues::LIVE);
    let at = live.iter().position(|(line, _)| *line == refused.line).expect("the shot");
    let all = relations(refused);
    let naming = |at: usize| {
        let place = place_of(&live[at].1);
        let lines = all.iter().filter(|(_, of)| source_of(of) == place).map(|(line, _)| *line);
        lines.collect::<Vec<u32>>()
    };
    assert!(naming(at).is_empty());
    let own = place(&place_of(&live[at].1));
    let mut claims = Claims::of([format!("shot {own} needs a relation line")]);
    if at > 0 {
        let line = *naming(at - 1).last().expect("the first shot that is not named");
        let shot = live[at - 1].0;
        let found = format!("the shot before it, S line {shot}, is named by X line {line}");
        claims.found.push(found);
        claims = claims.beside(X, line, 14);
    }
    if let Some((shot, _)) = live.get(at + 1) {
        let by = match naming(at + 1).first() {
            Some(line) => {
                claims = claims.beside(X, *line, 14);
                format!("named by X line {line}")
            }
            None => "not named either".to_owned(),
        };
        claims.found.push(format!("the shot after it, S line {shot}, is {by}"));
    }
    claims
}

fn record_of(relation: &RelationValues) -> ([u8; 6], u64) {
    (relation.tape, relation.record)
}

pub fn record(refused: &Refused) -> Claims {
    let (own, above) = relation(refused);
    let (line, before) = &above[0];
    if record_of(&own) != record_of(before) {
        let earlier = above.iter().find(|(_, of)| record_of(of) == record_of(&own));
        let (earlier, _) = earlier.expect("a line above");
        let record =
            |of: &RelationValues| format!("of tape {} record {}", told(&of.tape), of.record);
        let (own, between) = (record(&own), record(before));
        let found = format!("line {earlier} is {own} too; line {line} between them is {between}");
        return Claims::of([found]).beside(X, *earlier, 2);
    }
    let sources = [&own, before].map(|of| place(&source_of(of)));
    let rows = [
        (14, "source", sources),
        (12, "record increment", [&own, before].map(|of| of.record_increment.to_string())),
        (13, "instrument", [&own, before].map(|of| of.instrument.to_string())),
    ];
    let differ: Vec<_> = rows.iter().filter(|(_, _, [own, other])| own != other).collect();
    let found =
        differ.iter().map(|(_, what, [own, of])| format!("{what} {own}; line {line} has {of}"));
    Claims::of(found).beside(X, *line, differ[0].0)
}

pub fn channels(refused: &Refused) -> Claims {
    let (own, above) = relation(refused);
    let (line, before) = &above[0];
    assert!(record_of(&own) == record_of(before) && own.from_channel <= before.to_channel);
    let [from, to] = [own.from_channel, before.to_channel];
    let found = format!("from channel {from} is not above to channel {to} of line {line}");
    Claims::of([found]).beside(X, *line, 43)
}

/// The receivers of a line from its first, each with its first channel.
fn covered_by(of: &RelationValues) -> Vec<(u64, Place)> {
    let [low, high] = [of.from_receiver.min(of.to_receiver), of.from_receiver.max(of.to_receiver)];
    let mut numbers: Vec<u64> = (low..=high).collect();
    if of.from_receiver > of.to_receiver {
        numbers.reverse();
    }
    let channels = (of.from_channel..).step_by(of.channel_increment as usize);
    let places = numbers.into_iter().map(|number| (of.receiver_name, number, of.receiver_index));
    channels.zip(places).collect()
}

pub fn no_receiver(refused: &Refused) -> Claims {
    let (own, _) = relation(refused);
    let receivers = points(refused, R);
    let known: Vec<Place> = receivers.iter().map(|(_, point)| place_of(point)).collect();
    let lacking = covered_by(&own).into_iter().find(|(_, place)| !known.contains(place));
    let (_, lacking) = lacking.expect("a receiver that is not there");
    let (from, to) = (own.from_receiver, own.to_receiver);
    let first = place(&lacking);
    let first = format!("receiver {first} is not in R; this line covers {from} to {to}");
    let mut of_name = receivers.iter().filter(|(_, point)| point.name == lacking.0).peekable();
    if let Some(line) = marker(refused, R, lacking) {
        return Claims::of([first, format!("R line {line} is a marker")]).beside(R, line, 27);
    }
    if of_name.peek().is_none() {
        let names = names(&receivers);
        return Claims::of([first, format!("R has no receiver of that name; it has {names}")]);
    }
    match of_name.find(|(_, point)| point.number == lacking.1) {
        Some((line, point)) => {
            let found = [first, format!("R has it with index {}", point.index)];
            Claims::of(found).beside(R, *line, 26)
        }
        None => Claims::of([first]),
    }
}

pub fn covered(refused: &Refused) -> Claims {
    let (own, above) = relation(refused);
    let same = above.iter().rev().filter(|(_, of)| record_of(of) == record_of(&own));
    let same: Vec<(u32, Vec<(u64, Place)>)> =
        same.map(|(line, of)| (*line, covered_by(of))).collect();
    let twice = covered_by(&own).into_iter().find_map(|(channel, place)| {
        same.iter().find_map(|(line, before)| {
            let (other, _) = before.iter().find(|(_, of)| *of == place)?;
            Some((channel, place, *other, *line))
        })
    });
    let (channel, of, other, line) = twice.expect("a receiver that is covered twice");
    assert!(text(refused).starts_with('X'));
    let found = format!(
        "receiver {} is covered by channel {channel} of this line, and by channel {other} of line \
         {line}",
        place(&of)
    );
    Claims::of([found]).beside(X, line, 64)
}
