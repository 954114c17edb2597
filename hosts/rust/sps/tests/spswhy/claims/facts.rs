//! The values of lines, as the naive reader has them, and how they stand in sentences.

use super::made::{medium, Refused};
use crate::message::shown;
use naive::{PointValues, RelationValues};
use small_sets::File;

pub type Points = Vec<(u32, PointValues)>;

/// The points of R or S that are no markers, with their lines.
pub fn points(refused: &Refused, file: File) -> Points {
    let set = &refused.set;
    let at = |line| naive::point_at(medium(set), file.kind(), set.file(file), line).ok();
    let points = (1..=set.lines(file) as u32).filter_map(|line| Some((line, at(line.into())?)));
    points.filter(|(_, point)| point.state != PointValues::MARKER).collect()
}

/// The lines of X.
pub fn relations(refused: &Refused) -> Vec<(u32, RelationValues)> {
    let set = &refused.set;
    let at = |line| naive::relation_at(medium(set), &set.x, line).ok();
    (1..=set.lines(File::X) as u32).filter_map(|line| Some((line, at(line.into())?))).collect()
}

/// The line of X that is refused, and those above it, the last one first.
pub fn relation(refused: &Refused) -> (RelationValues, Vec<(u32, RelationValues)>) {
    let mut above = relations(refused);
    above.retain(|(line, _)| *line <= refused.line);
    let (line, own) = above.pop().expect("a relation line");
    assert_eq!(line, refused.line);
    above.reverse();
    (own, above)
}

/// The characters of the line that is refused.
pub fn text(refused: &Refused) -> String {
    shown(&refused.set, refused.file as u8, refused.line)
}

/// The header lines of a file, from 1.
pub fn headers(refused: &Refused, file: File) -> Vec<(u32, String)> {
    let lines = 1..=refused.set.lines(file) as u32;
    let texts = lines.map(|line| (line, shown(&refused.set, file as u8, line)));
    texts.take_while(|(_, text)| text.starts_with('H')).collect()
}

/// So many things, by the name of one; thousands stand apart.
pub fn counted(number: usize, one: &str) -> String {
    let more = if number == 1 { "" } else { "s" };
    match (number / 1_000, number % 1_000) {
        (0, number) => format!("{number} {one}{more}"),
        (thousands, rest) => format!("{thousands},{rest:03} {one}{more}"),
    }
}

/// A name as it is told.
pub fn told(name: &[u8]) -> String {
    let name = String::from_utf8_lossy(name).trim_end_matches(' ').to_owned();
    if name.contains(' ') {
        return format!("\"{name}\"");
    }
    name
}

/// Line name, number and index.
pub type Place = ([u8; 16], u64, u64);

pub fn place_of(point: &PointValues) -> Place {
    (point.name, point.number, point.index)
}

pub fn source_of(relation: &RelationValues) -> Place {
    (relation.source_name, relation.source_number, relation.source_index)
}

pub fn place((name, number, index): &Place) -> String {
    format!("{} {number} index {index}", told(name))
}
