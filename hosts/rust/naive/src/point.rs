//! A line of R or S: a live point, a killed one (KL), or a marker (PM) that is none.

use crate::fields::{field, Field};
use crate::{Fault, File, Line};

/// Line name, point number and point index: what tells points apart, in the
/// order in which receivers are sorted.
#[derive(Clone, Copy, Debug, PartialEq, Eq, PartialOrd, Ord, Hash)]
pub struct Place {
    pub name: [u8; 16],
    pub number: u32,
    pub index: u8,
}

/// A receiver or a shot. Decimals and the water depth are in tenths, the time is hhmmss.
#[derive(Clone, Copy, Debug, PartialEq, Eq)]
pub struct Point {
    pub place: Place,
    pub code: [u8; 2],
    pub static_correction: Option<i64>,
    pub depth: i64,
    pub datum: i64,
    pub uphole: Option<i64>,
    pub water_depth: Option<i64>,
    pub easting: i64,
    pub northing: i64,
    pub elevation: i64,
    pub day: u16,
    pub time: u32,
}

/// A permanent marker; its other columns are free text.
#[derive(Clone, Copy, Debug, PartialEq, Eq)]
pub struct Marker {
    pub name: [u8; 16],
    pub index: u8,
    pub easting: i64,
    pub northing: i64,
    pub elevation: i64,
}

/// What a line of R or S is.
#[derive(Clone, Copy, Debug, PartialEq, Eq)]
pub enum PointLine {
    Live(Point),
    /// A point that is there and gives nothing: no relation line names a killed shot, and
    /// the traces of a killed receiver are dead.
    Killed(Point),
    Marker(Marker),
}

impl PointLine {
    /// The point, killed or not.
    pub fn point(&self) -> Option<&Point> {
        match self {
            PointLine::Live(point) | PointLine::Killed(point) => Some(point),
            PointLine::Marker(_) => None,
        }
    }

    /// The point that is not killed.
    pub fn live(&self) -> Option<&Point> {
        match self {
            PointLine::Live(point) => Some(point),
            PointLine::Killed(_) | PointLine::Marker(_) => None,
        }
    }
}

/// Reads a line field by field from the left. PM decides first that it is a marker.
pub fn read(file: File, line: &Line) -> Result<PointLine, Fault> {
    let at = |first, last| field(line, first, last);
    if at(27, 28).is(b"PM") {
        return marker(file, at).map(PointLine::Marker);
    }
    let point = point(file, at)?;
    Ok(match &point.code {
        b"KL" => PointLine::Killed(point),
        _ => PointLine::Live(point),
    })
}

fn marker<'a>(file: File, at: impl Fn(u8, u8) -> Field<'a>) -> Result<Marker, Fault> {
    let (name, index) = (at(2, 17).name()?, at(26, 26).one_to_nine()?);
    at(27, 28).code(file)?;
    Ok(Marker {
        name,
        index,
        easting: at(47, 55).any_decimal()?,
        northing: at(56, 65).any_decimal()?,
        elevation: elevation(at(66, 71))?,
    })
}

fn point<'a>(file: File, at: impl Fn(u8, u8) -> Field<'a>) -> Result<Point, Fault> {
    Ok(Point {
        place: Place {
            name: at(2, 17).name()?,
            number: at(18, 25).point()?,
            index: at(26, 26).one_to_nine()?,
        },
        code: at(27, 28).code(file)?,
        static_correction: at(29, 32).or_blank(|f| f.whole(-999..=999))?,
        depth: at(33, 36).decimal(0..=999)?,
        datum: at(37, 40).whole(-999..=9999)?,
        uphole: at(41, 42).or_blank(|f| f.whole(0..=99))?,
        water_depth: at(43, 46).or_blank(Field::water_depth)?,
        easting: at(47, 55).any_decimal()?,
        northing: at(56, 65).any_decimal()?,
        elevation: elevation(at(66, 71))?,
        day: at(72, 74).whole(1..=999)? as u16,
        time: at(75, 80).time()?,
    })
}

fn elevation(field: Field) -> Result<i64, Fault> {
    field.decimal(-9_999..=99_999)
}
