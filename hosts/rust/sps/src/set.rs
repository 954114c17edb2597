//! A set, and its cross-check.

use crate::archive::{self, Files};
use crate::refusal::answer;
use crate::{Kind, Medium, Record, Refusal, Rows};
use std::fmt;

/// The bytes of a buffer for rows, where the caller lends none.
const BUFFER: usize = 4 << 20;

/// Three lent files on a medium, not checked yet.
///
/// ```
/// # let read = |name| std::fs::read(format!("../../../examples/odd_channel/{name}"));
/// # let (r, s, x) = (read("set.r01")?, read("set.s01")?, read("set.x01")?);
/// let set = sps::Set::new(sps::Medium::Disc, &r, &s, &x);
/// match set.cross() {
///     Ok(accepted) => println!("{} traces", accepted.traces),
///     Err(refusal) => println!("{refusal}: {}", refusal.number),
/// }
/// # Ok::<(), std::io::Error>(())
/// ```
#[derive(Clone, Copy)]
pub struct Set<'a> {
    files: Files<'a>,
}

/// What an accepted set holds. Shown, it is the verdict line of the program.
///
/// ```
/// # use sps::Accepted;
/// let accepted = Accepted { receivers: 3, shots: 1, relations: 1, traces: 9, dead_traces: 3 };
/// assert_eq!(accepted.to_string(), "ACCEPTED 3 1 1 9 3");
/// ```
#[derive(Clone, Copy, Debug, PartialEq, Eq, Hash)]
pub struct Accepted {
    /// Lines of R that are receivers, killed or not.
    pub receivers: u64,
    /// Lines of S that are shots, killed or not.
    pub shots: u64,
    /// Relation lines.
    pub relations: u64,
    /// Channels of all relation lines.
    pub traces: u64,
    /// Those of them that lead to killed receivers.
    pub dead_traces: u64,
}

impl<'a> Set<'a> {
    /// A set of three files, R, S and X, of any bytes.
    ///
    /// ```
    /// assert!(sps::Set::new(sps::Medium::Tape, b"", b"", b"").cross().is_err());
    /// ```
    pub fn new(medium: Medium, r: &'a [u8], s: &'a [u8], x: &'a [u8]) -> Set<'a> {
        Set { files: Files { medium: medium.number(), r, s, x } }
    }

    /// The cross-check of the three files: what the set holds, or the first breach of the
    /// rules 1 to 19, 24, 25 and, on tape, 29. It looks at the form of each itself, first R,
    /// then S, then X, and refuses what [`form`](crate::form()) refuses.
    ///
    /// ```
    /// # let read = |name| std::fs::read(format!("../../../examples/set_a/{name}"));
    /// # let (r, s, x) = (read("set.r01")?, read("set.s01")?, read("set.x01")?);
    /// # use sps::{Medium::Disc, Set};
    /// let accepted = Set::new(Disc, &r, &s, &x).cross()?;
    /// assert_eq!((accepted.receivers, accepted.traces), (3, 3));
    /// let refusal = Set::new(Disc, &r, &s, &r).cross().unwrap_err();
    /// assert_eq!(refusal.to_string(), "REFUSED 4 X 25 1");
    /// # Ok::<(), Box<dyn std::error::Error>>(())
    /// ```
    pub fn cross(&self) -> Result<Accepted, Refusal> {
        let mut counts = [[0; 8]; 5];
        answer(archive::counts(self.files, counts.as_flattened_mut()))?;
        let [receivers, shots, relations, traces, dead_traces] = counts.map(u64::from_le_bytes);
        Ok(Accepted { receivers, shots, relations, traces, dead_traces })
    }

    /// The record of a tape, to ask questions of. The tape is six columns of ASCII,
    /// blanks included, on either medium. Nothing is checked yet.
    ///
    /// ```
    /// # let read = |name| std::fs::read(format!("../../../examples/set_a/{name}"));
    /// # let (r, s, x) = (read("set.r01")?, read("set.s01")?, read("set.x01")?);
    /// # let set = sps::Set::new(sps::Medium::Disc, &r, &s, &x);
    /// assert!(set.record(b"100   ", 11).channel(1)?.is_some());
    /// assert!(set.record(b"100   ", 12).channel(1)?.is_none());
    /// # Ok::<(), Box<dyn std::error::Error>>(())
    /// ```
    pub fn record(&self, tape: &'a [u8], record: u64) -> Record<'a> {
        Record::new(self.files, tape, record)
    }

    /// All traces of the set in the order of X, each with its receiver. A set that is refused gives
    /// the refusal of [`cross`](Set::cross) alone. The rows come in chunks of 4 MB; each chunk
    /// checks the set, which is far less than a question for each trace.
    ///
    /// ```
    /// # let read = |name| std::fs::read(format!("../../../examples/killed/{name}"));
    /// # let (r, s, x) = (read("set.r01")?, read("set.s01")?, read("set.x01")?);
    /// let set = sps::Set::new(sps::Medium::Disc, &r, &s, &x);
    /// let mut dead = Vec::new();
    /// for row in set.rows() {
    ///     let row = row?;
    ///     if row.killed {
    ///         dead.push(row.channel);
    ///     }
    /// }
    /// assert_eq!(dead, [4, 5, 6]);
    /// # Ok::<(), Box<dyn std::error::Error>>(())
    /// ```
    pub fn rows(&self) -> Rows<'a> {
        self.rows_with(vec![0; BUFFER])
    }

    /// The same with the caller's own buffer, lent or given: a chunk is as many rows of 16 bytes
    /// as it has room for. Where there is a trace and the buffer has no room for one, it is refused
    /// ([`SliceLength`](crate::Number::SliceLength)).
    ///
    /// ```
    /// # let read = |name| std::fs::read(format!("../../../examples/set_a/{name}"));
    /// # let (r, s, x) = (read("set.r01")?, read("set.s01")?, read("set.x01")?);
    /// let set = sps::Set::new(sps::Medium::Disc, &r, &s, &x);
    /// let mut buffer = [0; 2 * 16];
    /// let rows = set.rows_with(&mut buffer).collect::<Result<Vec<_>, _>>()?;
    /// assert_eq!(rows.iter().map(|row| row.r_line).collect::<Vec<_>>(), [25, 26, 27]);
    /// # Ok::<(), Box<dyn std::error::Error>>(())
    /// ```
    pub fn rows_with<B: AsMut<[u8]>>(&self, buffer: B) -> Rows<'a, B> {
        Rows::new(self.files, buffer)
    }

    /// The rows as bytes, from the trace of a number on, counted from 0: as many as the slice has
    /// whole places of 16 bytes; later places and bytes stay. The answer is the number of all
    /// traces. `include/sps.h` says what stands where in a row.
    ///
    /// ```
    /// # let read = |name| std::fs::read(format!("../../../examples/set_a/{name}"));
    /// # let (r, s, x) = (read("set.r01")?, read("set.s01")?, read("set.x01")?);
    /// let set = sps::Set::new(sps::Medium::Disc, &r, &s, &x);
    /// let mut bytes = [9; 18];
    /// assert_eq!(set.row_bytes(1, &mut bytes)?, 3);
    /// assert_eq!(bytes, [25, 0, 0, 0, 2, 0, 0, 0, 26, 0, 0, 0, 1, 0, 0, 0, 9, 9]);
    /// # Ok::<(), Box<dyn std::error::Error>>(())
    /// ```
    pub fn row_bytes(&self, first: u64, rows: &mut [u8]) -> Result<u64, Refusal> {
        answer(archive::traces(self.files, first, rows))
    }

    /// The header line of R that names a code, from 1; `None` where none does. The code is
    /// asked in ASCII on either medium: two bytes of a receiver's or a source's, which PM and
    /// KL are not, or the digit of an instrument. Any other is refused first (20), then the
    /// set.
    ///
    /// ```
    /// # let read = |name| std::fs::read(format!("../../../examples/code_tables/{name}"));
    /// # let (r, s, x) = (read("set.r01")?, read("set.s01")?, read("set.x01")?);
    /// # use sps::{Kind, Medium, Set};
    /// let set = Set::new(Medium::Disc, &r, &s, &x);
    /// let line = set.table_line(Kind::Receiver, b"G2")?.expect("a table of G2");
    /// let text = &r[(line as usize - 1) * 82..][..80];
    /// assert_eq!(text[32..].trim_ascii(), b"G2,marsh case;");
    /// assert_eq!(set.table_line(Kind::Receiver, b"G3")?, None);
    /// # Ok::<(), Box<dyn std::error::Error>>(())
    /// ```
    pub fn table_line(&self, kind: Kind, code: &[u8]) -> Result<Option<u64>, Refusal> {
        let line = answer(archive::table_line(self.files, kind.number(), code))?;
        Ok((line != 0).then_some(line))
    }
}

impl fmt::Display for Accepted {
    fn fmt(&self, f: &mut fmt::Formatter) -> fmt::Result {
        let Accepted { receivers, shots, relations, traces, dead_traces } = self;
        write!(f, "ACCEPTED {receivers} {shots} {relations} {traces} {dead_traces}")
    }
}
