//! One set, both readers: its traces as rows.

use crate::archive::{self, Files};
use crate::keep::keep;
use crate::lent::lent;
use crate::typed;
use naive::{HostNumber, Row};
use small_sets::{Set, STAYS};

/// What the naive reader says of a set: the number for a C host, and all rows, also as bytes.
pub struct Told {
    pub number: u64,
    pub rows: Vec<Row>,
    bytes: Vec<u8>,
}

pub fn told(set: &Set) -> Told {
    let medium = naive::medium(set.medium as u64).expect("a medium");
    match naive::rows(medium, set.files(), 0, usize::MAX) {
        Ok((counts, rows)) => Told::new(counts.host_number(), rows),
        Err(refusal) => Told::new(refusal.host_number(), Vec::new()),
    }
}

impl Told {
    pub fn new(number: u64, rows: Vec<Row>) -> Told {
        let mut bytes = Vec::with_capacity(16 * rows.len());
        rows.iter().for_each(|row| bytes.extend_from_slice(&row.place()));
        Told { number, rows, bytes }
    }

    pub fn is_refused(&self) -> bool {
        self.number >> 40 != 0
    }

    /// What stands in a slice of some bytes, once the traces from a number on are written.
    fn slice(&self, first: u64, length: usize) -> Vec<u8> {
        let start = first.min(self.rows.len() as u64) as usize * 16;
        let end = self.bytes.len().min(start + length / 16 * 16);
        let mut slice = self.bytes[start..end].to_vec();
        slice.resize(length, STAYS);
        slice
    }
}

/// A set as the calls take it.
pub fn files(Set { medium, r, s, x }: &Set) -> Files<'_> {
    Files { medium: *medium as u64, r, s, x }
}

/// Holds the call to what is told of a set: its number, every byte of a slice, and those around it.
pub fn hold(set: &Set, told: &Told, first: u64, length: usize) {
    let (number, bytes) = lent(STAYS, length, |rows| archive::traces(files(set), first, rows));
    let expected = told.slice(first, length);
    if number != told.number || bytes != expected {
        let place = bytes.iter().zip(&expected).position(|(found, told)| found != told);
        let (kept, told) = (keep(set), told.number);
        let kept = kept.display();
        panic!(
            "{length} bytes from trace {first} on: {number:x}, expected {told:x}\n  first byte \
             that differs: {place:?}\n  the files are in {kept}"
        );
    }
}

/// The first traces, those near the last, and numbers far beyond it.
pub fn firsts(traces: u64) -> [u64; 10] {
    let [before, last] = [2, 1].map(|from_end| traces.saturating_sub(from_end));
    [0, 1, traces / 2, before, last, traces, traces + 1, 1 << 32, 1 << 60, u64::MAX]
}

/// How many traces are gone through in chunks of exactly one to five places.
const FEW: usize = 200;

/// Holds a set in chunks of one to five places, or longer ones where there are many traces, with
/// bytes over that are no place; then without a place, from beyond the last trace on, and through
/// the wrapper.
pub fn hold_all(set: &Set) -> Told {
    let told = told(set);
    let traces = told.rows.len();
    let more = if traces > FEW { traces / 20 } else { 0 };
    for places in 1..=5 {
        for first in (0..traces.max(1)).step_by(places + more) {
            hold(set, &told, first as u64, 16 * (places + more) + places);
        }
    }
    hold(set, &told, 0, 0);
    for first in [traces as u64, traces as u64 + 1, u64::MAX] {
        hold(set, &told, first, 33);
    }
    typed::hold(set, &told, 16 * (traces / 3 + 1) + 7);
    told
}
