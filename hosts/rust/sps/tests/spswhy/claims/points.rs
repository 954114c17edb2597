//! 10 to 12.

use super::facts::{place, place_of, points, Points};
use super::made::Refused;
use super::Claims;
use naive::PointValues;
use small_sets::File::{R, S};
use small_sets::{File, Medium};

/// The point that is refused, and those above it.
fn above(refused: &Refused, file: File) -> (PointValues, Points) {
    let mut above = points(refused, file);
    above.retain(|(line, _)| *line <= refused.line);
    let (line, own) = above.pop().expect("a point");
    assert_eq!(line, refused.line);
    (own, above)
}

pub fn order(refused: &Refused) -> Claims {
    let (own, above) = above(refused, R);
    let (line, before) = above.last().expect("a receiver above");
    let bytes = |line: u32| refused.set.line(R, line as usize).0[1..17].to_vec();
    let found = if own.name != before.name {
        assert!(bytes(refused.line) < bytes(*line), "the names' own bytes");
        let names = [own.name, before.name];
        let [name, other] = names.map(|name| String::from_utf8_lossy(&name).trim_end().to_owned());
        let how = match refused.set.medium {
            Medium::Disc => "byte by byte",
            Medium::Tape => "by the tape's own bytes, letters before digits",
        };
        format!("\"{name}\" stands before \"{other}\": names compare {how}")
    } else if own.number != before.number {
        assert!(own.number < before.number);
        format!("point {} is below {} of line {line}", own.number, before.number)
    } else if own.index != before.index {
        assert!(own.index < before.index);
        format!("index {} is below {} of line {line}", own.index, before.index)
    } else {
        format!("the same as line {line}")
    };
    Claims::of([found]).beside(R, *line, 2)
}

pub fn earlier(refused: &Refused) -> Claims {
    let (own, above) = above(refused, S);
    let (line, before) = above.last().expect("a shot above");
    assert!((own.day, own.time) < (before.day, before.time));
    let moment = |of: &PointValues| format!("day {} time {:06}", of.day, of.time);
    let found = format!("{} is earlier than {} of line {line}", moment(&own), moment(before));
    Claims::of([found]).beside(S, *line, 72)
}

pub fn repeated(refused: &Refused) -> Claims {
    let (own, above) = above(refused, S);
    let same = above.iter().find(|(_, point)| place_of(point) == place_of(&own));
    let (line, _) = same.expect("the shot above");
    let found = format!("shot {} is the same as line {line}", place(&place_of(&own)));
    Claims::of([found]).beside(S, *line, 2)
}
