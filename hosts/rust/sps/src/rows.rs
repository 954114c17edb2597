//! All traces of a set, as typed rows that are asked for chunk by chunk.

use crate::archive::{self, Files};
use crate::refusal::answer;
use crate::{Number, Refusal};
use std::iter::FusedIterator;
use std::ops::Range;

/// The bytes of a row.
const LENGTH: usize = 16;

/// A trace of a set, and where it comes from.
///
/// ```
/// # let read = |name| std::fs::read(format!("../../../examples/killed/{name}"));
/// # let (r, s, x) = (read("set.r01")?, read("set.s01")?, read("set.x01")?);
/// let set = sps::Set::new(sps::Medium::Disc, &r, &s, &x);
/// let row = set.rows().nth(4).expect("a fifth trace")?;
/// assert_eq!((&row.tape, row.record, row.channel), (b"100   ", 11, 5));
/// assert_eq!((row.r_line, row.component, row.killed), (26, 2, true));
/// # Ok::<(), Box<dyn std::error::Error>>(())
/// ```
#[derive(Clone, Copy, Debug, PartialEq, Eq, Hash)]
pub struct Row {
    /// The tape of its relation line, with its blanks.
    pub tape: [u8; 6],
    /// The field record of its relation line.
    pub record: u32,
    /// Its channel, from 1.
    pub channel: u32,
    /// The line of its receiver in R, headers included.
    pub r_line: u32,
    /// Its component, from 1.
    pub component: u8,
    /// Whether its receiver is killed, so that the trace is dead.
    pub killed: bool,
    /// Its relation line in X, headers included.
    pub x_line: u32,
}

/// The traces of a set in the order of X, line by line and channel by channel. It asks for as many
/// at once as its buffer has room for, and each time the set is checked. A refusal is the last
/// item.
///
/// [`Set::rows`](crate::Set::rows) makes one.
pub struct Rows<'a, B = Vec<u8>> {
    files: Files<'a>,
    buffer: B,
    /// The bytes of the buffer that hold the next rows.
    held: Range<usize>,
    /// How many traces are asked for so far.
    asked: u64,
    /// How many there are, once that is answered; none after a refusal.
    traces: Option<u64>,
    line: Line,
}

/// A line of X, and its tape and record.
#[derive(Clone, Copy, Default)]
struct Line {
    x_line: u32,
    tape: [u8; 6],
    record: u32,
}

impl Line {
    /// They stand in the first two places of the line's values.
    fn read(files: Files, x_line: u32) -> Result<Line, Refusal> {
        let mut values = [[0; 8]; 2];
        let Files { medium, x, .. } = files;
        answer(archive::read_relation(medium, x, x_line.into(), values.as_flattened_mut()))?;
        let [[f, e, d, c, b, a, ..], record] = values;
        let record = u64::from_le_bytes(record) as u32;
        Ok(Line { x_line, tape: [a, b, c, d, e, f], record })
    }
}

impl<'a, B: AsMut<[u8]>> Rows<'a, B> {
    pub(crate) fn new(files: Files<'a>, buffer: B) -> Rows<'a, B> {
        Rows { files, buffer, held: 0..0, asked: 0, traces: None, line: Line::default() }
    }

    /// The four numbers of the next row, where the buffer holds one.
    #[inline]
    fn place(&mut self) -> Option<[u32; 4]> {
        let held = self.buffer.as_mut().get(self.held.clone())?;
        let whole = u128::from_le_bytes(*held.first_chunk()?);
        Some([0, 32, 64, 96].map(|bits| (whole >> bits) as u32))
    }

    /// The next row, where the buffer holds one of the line that is read.
    #[inline]
    fn row(&mut self) -> Option<Row> {
        let [x_line, channel, r_line, last] = self.place()?;
        let Line { tape, record, x_line: read } = self.line;
        if x_line != read {
            return None;
        }
        self.held.start += LENGTH;
        let [component, killed, ..] = last.to_le_bytes();
        Some(Row { tape, record, channel, r_line, component, killed: killed != 0, x_line })
    }

    /// Reads the line of the next row, and asks for more rows where the buffer holds none; false
    /// where there are no more.
    #[cold]
    fn turn(&mut self) -> Result<bool, Refusal> {
        if self.held.is_empty() {
            self.fill()?;
        }
        let Some([x_line, ..]) = self.place() else { return Ok(false) };
        self.line = Line::read(self.files, x_line)?;
        Ok(true)
    }

    /// Asks for as many traces as the buffer has room for, where there are more.
    fn fill(&mut self) -> Result<(), Refusal> {
        if self.traces.is_some_and(|traces| traces <= self.asked) {
            return Ok(());
        }
        let buffer = self.buffer.as_mut();
        let traces = answer(archive::traces(self.files, self.asked, buffer))?;
        let left = traces.saturating_sub(self.asked);
        let rows = left.min((buffer.len() / LENGTH) as u64);
        if rows == 0 && left > 0 {
            let number = Number::SliceLength;
            return Err(Refusal { number, file: None, line: 0, column: 0 });
        }
        self.held = 0..rows as usize * LENGTH;
        self.asked += rows;
        self.traces = Some(traces);
        Ok(())
    }
}

impl<B: AsMut<[u8]>> Iterator for Rows<'_, B> {
    type Item = Result<Row, Refusal>;

    #[inline]
    fn next(&mut self) -> Option<Self::Item> {
        if let Some(row) = self.row() {
            return Some(Ok(row));
        }
        match self.turn() {
            Ok(true) => self.row().map(Ok),
            Ok(false) => None,
            Err(refusal) => {
                (self.held, self.traces) = (0..0, Some(0));
                Some(Err(refusal))
            }
        }
    }

    /// How many rows are left, once the first is given out.
    fn size_hint(&self) -> (usize, Option<usize>) {
        match self.traces {
            None => (0, None),
            Some(traces) => {
                let left = traces.saturating_sub(self.asked) as usize;
                let left = left + self.held.len() / LENGTH;
                (left, Some(left))
            }
        }
    }
}

impl<B: AsMut<[u8]>> FusedIterator for Rows<'_, B> {}
