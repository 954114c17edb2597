//! The values of a line of R or S: read, and written.

use crate::places::{self, held, name, number_of_held, numbers_of_name, Numbers};
use crate::{archive, File, Medium, Refusal};

/// What a point is, which its code decides.
///
/// ```
/// # use sps::{read_point, File, Medium::Disc, PointState};
/// # let r = std::fs::read("../../../examples/killed/set.r01")?;
/// assert_eq!(read_point(Disc, File::R, &r, 25)?.state, PointState::Live);
/// assert_eq!(read_point(Disc, File::R, &r, 26)?.state, PointState::Killed);
/// # Ok::<(), Box<dyn std::error::Error>>(())
/// ```
#[derive(Clone, Copy, Debug, PartialEq, Eq, Hash)]
pub enum PointState {
    /// A receiver or a shot.
    Live,
    /// One of code KL.
    Killed,
    /// Of code PM: no point.
    Marker,
}

/// The values of a line of R or S. Of a marker the number, the day and the time, and all from
/// the static to the water depth, say nothing: these columns are free text.
///
/// ```
/// # use sps::{read_point, File, Medium::Disc};
/// # let mut r = std::fs::read("../../../examples/set_a/set.r01")?;
/// let mut point = read_point(Disc, File::R, &r, 25)?;
/// assert_eq!((&point.name, point.number), (b"L1              ", 101));
/// point.easting = 3_262_601;
/// point.write(File::R, &mut r[24 * 82..])?;
/// assert_eq!(&r[24 * 82..][46..55], b" 326260.1");
/// # Ok::<(), Box<dyn std::error::Error>>(())
/// ```
#[derive(Clone, Copy, Debug, PartialEq, Eq, Hash)]
pub struct Point {
    /// The line name with its blanks: bytes 32 to 126, the first no blank.
    pub name: [u8; 16],
    /// The point number, 0 to 99,999,999.
    pub number: u64,
    /// The index, 1 to 9.
    pub index: u64,
    /// A code of the file: in R a G, H or R, in S a V, E, A, W or S, and a digit 1 to 9; or KL,
    /// or PM.
    pub code: [u8; 2],
    /// What the code says.
    pub state: PointState,
    /// The static, -999 to 999.
    pub static_correction: Option<i64>,
    /// The depth in tenths, 0 to 999.
    pub depth: i64,
    /// The seismic datum, -999 to 9,999.
    pub datum: i64,
    /// The uphole time, 0 to 99.
    pub uphole: Option<i64>,
    /// The water depth in tenths, 0 to 999, or by tens 1,000 to 9,990.
    pub water_depth: Option<i64>,
    /// The easting in tenths, -99,999,999 to 999,999,999.
    pub easting: i64,
    /// The northing in tenths, -999,999,999 to 9,999,999,999.
    pub northing: i64,
    /// The elevation in tenths, -9,999 to 99,999.
    pub elevation: i64,
    /// The day, 1 to 999.
    pub day: u64,
    /// The time as one number hhmmss: 071245 is 71,245.
    pub time: u64,
}

/// Reads a line of R or S, from 1, by itself: other lines of the file are not looked at. A line
/// that is not there, a header line and X are refused first (20), then 3, 4 and 5 of the line.
///
/// ```
/// # use sps::{read_point, File, Medium::Disc, Number};
/// # let s = std::fs::read("../../../examples/set_a/set.s01")?;
/// let shot = read_point(Disc, File::S, &s, 25)?;
/// assert_eq!((&shot.code, shot.water_depth, shot.time), (b"V1", None, 71_245));
/// let refusal = read_point(Disc, File::R, &s, 25).unwrap_err();
/// assert_eq!(refusal.to_string(), "REFUSED 4 R 25 1");
/// assert_eq!(read_point(Disc, File::S, &s, 24).unwrap_err().number, Number::QuestionRange);
/// # Ok::<(), Box<dyn std::error::Error>>(())
/// ```
pub fn read_point(medium: Medium, kind: File, file: &[u8], line: u64) -> Result<Point, Refusal> {
    let (state, numbers) = places::read(|values| {
        archive::read_point(medium.number(), kind.number(), file, line, values)
    })?;
    Ok(Point::of(state, numbers))
}

impl Point {
    /// Writes the point over the first 82 bytes of a slice, as a line of R or S with CR and LF;
    /// later bytes stay. Values that no line of the file has, a marker and X are refused first
    /// (22), then a slice that is too short (23); a refusal writes nothing.
    ///
    /// A line has one spelling: numbers on the right of their columns, absent values blank, and
    /// decimals with their point where there is room for it.
    ///
    /// ```
    /// # use sps::{read_point, File, Medium::Disc, Number};
    /// # let r = std::fs::read("../../../examples/no_points/set.r01")?;
    /// let mut point = read_point(Disc, File::R, &r, 25)?;
    /// let mut line = [0; 82];
    /// point.write(File::R, &mut line)?;
    /// assert_eq!((&r[24 * 82..][46..55], &line[46..55]), (&b"003262601"[..], &b" 326260.1"[..]));
    /// assert_eq!(point.write(File::S, &mut line).unwrap_err().number, Number::ValueRange);
    /// assert_eq!(point.write(File::R, &mut line[1..]).unwrap_err().number, Number::LineLength);
    /// # Ok::<(), Box<dyn std::error::Error>>(())
    /// ```
    pub fn write(&self, kind: File, line: &mut [u8]) -> Result<(), Refusal> {
        places::write(self.numbers(), |values| archive::write_point(kind.number(), values, line))
    }

    fn of(state: u64, numbers: Numbers) -> Point {
        let [high, low, number, index, code, _, static_correction, rest @ ..] = numbers;
        let [depth, datum, uphole, water_depth, easting, northing, elevation, day, time] = rest;
        Point {
            name: name(high, low),
            number,
            index,
            code: (code as u16).to_be_bytes(),
            state: PointState::of(state),
            static_correction: held(static_correction),
            depth: depth as i64,
            datum: datum as i64,
            uphole: held(uphole),
            water_depth: held(water_depth),
            easting: easting as i64,
            northing: northing as i64,
            elevation: elevation as i64,
            day,
            time,
        }
    }

    fn numbers(&self) -> Numbers {
        let [high, low] = numbers_of_name(self.name);
        [
            high,
            low,
            self.number,
            self.index,
            u16::from_be_bytes(self.code).into(),
            self.state as u64,
            number_of_held(self.static_correction),
            self.depth as u64,
            self.datum as u64,
            number_of_held(self.uphole),
            number_of_held(self.water_depth),
            self.easting as u64,
            self.northing as u64,
            self.elevation as u64,
            self.day,
            self.time,
        ]
    }
}

impl PointState {
    fn of(number: u64) -> PointState {
        match number {
            0 => PointState::Live,
            1 => PointState::Killed,
            _ => PointState::Marker,
        }
    }
}
