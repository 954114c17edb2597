//! The writer: one line with CR and LF, at the start of a lent slice. 22 for values that no
//! line has, then 23.

use crate::spell::{code, coordinate, decimal, name, or_blank, time, water_depth, whole};
use crate::{placeless, relation, File, Line, PointValues, Refusal, RelationValues};

/// First and last column of a field, as the paper counts them, and what stands on the right of
/// them; nothing where its value has no spelling.
type Field = (usize, usize, Option<String>);

/// Writes a point.
pub fn point(values: &PointValues, out: &mut [u8]) -> Result<(), Refusal> {
    put(point_line(values), out)
}

/// Writes a relation.
pub fn relation(values: &RelationValues, out: &mut [u8]) -> Result<(), Refusal> {
    put(relation_line(values), out)
}

/// 22 where there is no line, then 23; otherwise the line over the first 82 bytes.
fn put(line: Option<Line>, out: &mut [u8]) -> Result<(), Refusal> {
    let line = line.ok_or(placeless(22))?;
    let [columns @ .., cr, lf] = out.first_chunk_mut::<82>().ok_or(placeless(23))?;
    (*columns, *cr, *lf) = (line, b'\r', b'\n');
    Ok(())
}

/// A live point or a killed one; a marker has no line.
fn point_line(values: &PointValues) -> Option<Line> {
    let own = |&file: &File| u64::from(file.letter()) == values.letter;
    let file = [File::R, File::S].into_iter().find(own)?;
    line([
        (1, 1, letter_of(file)),
        (2, 17, name(&values.name)),
        (18, 25, point_number(values.number)),
        (26, 26, one_to_nine(values.index)),
        (27, 28, code(file, &values.code).filter(|_| state_agrees(values))),
        (29, 32, or_blank(values.static_correction, |number| whole(number, -999..=999))),
        (33, 36, decimal(values.depth, 0..=999)),
        (37, 40, whole(values.datum, -999..=9_999)),
        (41, 42, or_blank(values.uphole, |number| whole(number, 0..=99))),
        (43, 46, or_blank(values.water_depth, water_depth)),
        (47, 55, coordinate(values.easting, 9)),
        (56, 65, coordinate(values.northing, 10)),
        (66, 71, decimal(values.elevation, -9_999..=99_999)),
        (72, 74, whole(values.day, 1..=999)),
        (75, 80, time(values.time)),
    ])
}

/// KL is killed, every other code of a point is live, and PM is none.
fn state_agrees(values: &PointValues) -> bool {
    match &values.code {
        b"PM" => false,
        b"KL" => values.state == PointValues::KILLED,
        _ => values.state == PointValues::LIVE,
    }
}

/// A relation whose channels and receivers agree, as 6 has it of the line.
fn relation_line(values: &RelationValues) -> Option<Line> {
    let line = line([
        (1, 1, letter_of(File::X)),
        (2, 7, name(&values.tape)),
        (8, 11, whole(values.record, 0..=9_999)),
        (12, 12, one_to_nine(values.record_increment)),
        (13, 13, one_to_nine(values.instrument)),
        (14, 29, name(&values.source_name)),
        (30, 37, point_number(values.source_number)),
        (38, 38, one_to_nine(values.source_index)),
        (39, 42, whole(values.from_channel, 1..=9_999)),
        (43, 46, whole(values.to_channel, 1..=9_999)),
        (47, 47, one_to_nine(values.channel_increment)),
        (48, 63, name(&values.receiver_name)),
        (64, 71, point_number(values.from_receiver)),
        (72, 79, point_number(values.to_receiver)),
        (80, 80, one_to_nine(values.receiver_index)),
    ]);
    line.filter(|line| relation::read(line).is_ok())
}

fn letter_of(file: File) -> Option<String> {
    Some(char::from(file.letter()).to_string())
}

fn point_number(number: u64) -> Option<String> {
    whole(number, 0..=99_999_999)
}

/// An index, an increment, an instrument; 1 is written too.
fn one_to_nine(number: u64) -> Option<String> {
    whole(number, 1..=9)
}

/// Each text on the right of its columns, blanks before it.
fn line<const N: usize>(fields: [Field; N]) -> Option<Line> {
    let mut line = [b' '; 80];
    for (first, last, text) in fields {
        let text = text?;
        let columns = &mut line[first - 1..last];
        let blanks = columns.len().checked_sub(text.len())?;
        columns[blanks..].copy_from_slice(text.as_bytes());
    }
    Some(line)
}
