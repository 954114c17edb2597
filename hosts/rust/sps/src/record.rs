//! Questions on a record of a set: the lookup, the way back, the spread table.

use crate::archive::{self, Files};
use crate::refusal::answer;
use crate::Refusal;

/// A record of a set. Each of its questions checks the set itself: a question out of
/// range is refused first (20), then the set (1 to 19, 24, 25 and 29).
///
/// ```
/// # let read = |name| std::fs::read(format!("../../../examples/set_a/{name}"));
/// # let (r, s, x) = (read("set.r01")?, read("set.s01")?, read("set.x01")?);
/// let record = sps::Set::new(sps::Medium::Disc, &r, &s, &x).record(b"100   ", 11);
/// assert_eq!(record.channel(0).unwrap_err().number, sps::Number::QuestionRange);
/// # Ok::<(), std::io::Error>(())
/// ```
#[derive(Clone, Copy)]
pub struct Record<'a> {
    files: Files<'a>,
    tape: &'a [u8],
    record: u64,
}

/// Where a trace comes from.
///
/// ```
/// # let read = |name| std::fs::read(format!("../../../examples/killed/{name}"));
/// # let (r, s, x) = (read("set.r01")?, read("set.s01")?, read("set.x01")?);
/// let record = sps::Set::new(sps::Medium::Disc, &r, &s, &x).record(b"100   ", 11);
/// let dead = |channel| record.channel(channel).map(|trace| trace.is_some_and(|of| of.killed));
/// assert_eq!([dead(3)?, dead(4)?, dead(7)?], [false, true, false]);
/// # Ok::<(), Box<dyn std::error::Error>>(())
/// ```
#[derive(Clone, Copy, Debug, PartialEq, Eq, Hash)]
pub struct Trace {
    /// The line of its receiver in R, headers included.
    pub r_line: u64,
    /// Its component, from 1.
    pub component: u64,
    /// Whether its receiver is killed, so that the trace is dead.
    pub killed: bool,
}

impl Trace {
    /// The trace `R line * 16 + component`, and 2^32 more where the receiver is killed.
    fn of(packed: u64) -> Trace {
        let (r_line, component) = (packed >> 4 & 0xFFF_FFFF, packed & 0xF);
        Trace { r_line, component, killed: packed >> 32 & 1 == 1 }
    }
}

impl<'a> Record<'a> {
    pub(crate) fn new(files: Files<'a>, tape: &'a [u8], record: u64) -> Record<'a> {
        Record { files, tape, record }
    }

    /// The receiver that a channel leads to; `None` is no trace.
    ///
    /// ```
    /// # let read = |name| std::fs::read(format!("../../../examples/three_components/{name}"));
    /// # let (r, s, x) = (read("set.r01")?, read("set.s01")?, read("set.x01")?);
    /// let record = sps::Set::new(sps::Medium::Disc, &r, &s, &x).record(b"100   ", 11);
    /// let trace = sps::Trace { r_line: 26, component: 3, killed: false };
    /// assert_eq!(record.channel(6)?, Some(trace));
    /// assert_eq!(record.channel(10)?, None);
    /// # Ok::<(), Box<dyn std::error::Error>>(())
    /// ```
    pub fn channel(&self, channel: u64) -> Result<Option<Trace>, Refusal> {
        let packed = answer(archive::trace(self.files, self.tape, self.record, channel))?;
        Ok((packed != 0).then(|| Trace::of(packed)))
    }

    /// The channel that leads to a line of R and a component, also of a killed receiver;
    /// `None` is no trace, also where the line is a header, a marker, an EOF record or
    /// beyond the file.
    ///
    /// ```
    /// # let read = |name| std::fs::read(format!("../../../examples/three_components/{name}"));
    /// # let (r, s, x) = (read("set.r01")?, read("set.s01")?, read("set.x01")?);
    /// let record = sps::Set::new(sps::Medium::Disc, &r, &s, &x).record(b"100   ", 11);
    /// assert_eq!(record.receiver(26, 3)?, Some(6));
    /// assert_eq!(record.receiver(1, 1)?, None);
    /// # Ok::<(), Box<dyn std::error::Error>>(())
    /// ```
    pub fn receiver(&self, r_line: u64, component: u64) -> Result<Option<u64>, Refusal> {
        let (tape, record) = (self.tape, self.record);
        let channel = answer(archive::channel(self.files, tape, record, r_line, component))?;
        Ok((channel != 0).then_some(channel))
    }

    /// The spread table: place c-1 takes the R line and the component of channel c,
    /// or 0 and 0 where it is not covered, up to the highest covered channel, which
    /// is the answer. Later places stay. Killed receivers stand as others do. An absent
    /// record answers 0 and writes nothing, and so does a refusal, also that of a slice too
    /// short (21).
    ///
    /// ```
    /// # let read = |name| std::fs::read(format!("../../../examples/set_a/{name}"));
    /// # let (r, s, x) = (read("set.r01")?, read("set.s01")?, read("set.x01")?);
    /// let record = sps::Set::new(sps::Medium::Disc, &r, &s, &x).record(b"100   ", 11);
    /// let (mut lines, mut components) = ([9; 4], [9; 4]);
    /// assert_eq!(record.spread(&mut lines, &mut components)?, 3);
    /// assert_eq!((lines, components), ([25, 26, 27, 9], [1, 1, 1, 9]));
    /// # Ok::<(), Box<dyn std::error::Error>>(())
    /// ```
    pub fn spread(&self, lines: &mut [u16], components: &mut [u8]) -> Result<u64, Refusal> {
        let highest = self.spread_bytes(archive::bytes_of(lines), components)?;
        // The low byte of a place comes first, whatever the machine has.
        lines.iter_mut().zip(0..highest).for_each(|(place, _)| *place = u16::from_le(*place));
        Ok(highest)
    }

    /// The spread table with each line as two bytes, the low one first. An odd last
    /// byte is no place and stays.
    ///
    /// ```
    /// # let read = |name| std::fs::read(format!("../../../examples/set_a/{name}"));
    /// # let (r, s, x) = (read("set.r01")?, read("set.s01")?, read("set.x01")?);
    /// let record = sps::Set::new(sps::Medium::Disc, &r, &s, &x).record(b"100   ", 11);
    /// let (mut lines, mut components) = ([9; 7], [9; 3]);
    /// assert_eq!(record.spread_bytes(&mut lines, &mut components)?, 3);
    /// assert_eq!((lines, components), ([25, 0, 26, 0, 27, 0, 9], [1, 1, 1]));
    /// # Ok::<(), Box<dyn std::error::Error>>(())
    /// ```
    pub fn spread_bytes(&self, lines: &mut [u8], components: &mut [u8]) -> Result<u64, Refusal> {
        answer(archive::spread(self.files, self.tape, self.record, lines, components))
    }
}
