//! What a C host asks with and gets: 64-bit numbers.

use crate::{placeless, Counts, File, Medium, PointValues, Refusal, RelationValues, Trace};

/// The medium of a host's number; any other is 20, before all else.
pub fn medium(number: u64) -> Result<Medium, Refusal> {
    match number {
        1 => Ok(Medium::Disc),
        2 => Ok(Medium::Tape),
        _ => Err(placeless(20)),
    }
}

/// The number of an answer; a well-formed file, an accepted set without traces, a line that is
/// written and "none" are 0.
pub trait HostNumber {
    fn host_number(&self) -> u64;
}

impl HostNumber for Refusal {
    fn host_number(&self) -> u64 {
        let file = match self.file {
            None => 0,
            Some(File::R) => 1,
            Some(File::S) => 2,
            Some(File::X) => 3,
        };
        (u64::from(self.number) << 40)
            + (file << 32)
            + u64::from(self.line) * 256
            + u64::from(self.column)
    }
}

/// A well-formed file, or a line that is written.
impl HostNumber for () {
    fn host_number(&self) -> u64 {
        0
    }
}

impl HostNumber for Counts {
    fn host_number(&self) -> u64 {
        self.traces
    }
}

impl HostNumber for Trace {
    fn host_number(&self) -> u64 {
        let killed = u64::from(self.killed) << 32;
        killed + u64::from(self.r_line) * 16 + u64::from(self.component)
    }
}

/// A point that is read: its state.
impl HostNumber for PointValues {
    fn host_number(&self) -> u64 {
        self.state
    }
}

impl HostNumber for RelationValues {
    fn host_number(&self) -> u64 {
        0
    }
}

/// A channel, the highest one, or a line.
impl HostNumber for u16 {
    fn host_number(&self) -> u64 {
        u64::from(*self)
    }
}

impl<T: HostNumber> HostNumber for Option<T> {
    fn host_number(&self) -> u64 {
        self.as_ref().map_or(0, T::host_number)
    }
}

impl<T: HostNumber> HostNumber for Result<T, Refusal> {
    fn host_number(&self) -> u64 {
        match self {
            Ok(answer) => answer.host_number(),
            Err(refusal) => refusal.host_number(),
        }
    }
}
