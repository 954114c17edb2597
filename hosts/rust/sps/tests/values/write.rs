//! One writing of values: the call, the wrapper and the naive writer.

use crate::archive;
use crate::carried::{self, bytes_of, Numbers, ABSENT};
use crate::lent::lent;
use crate::told::written;
use many_sets::values::Values;
use naive::{HostNumber, PointValues, RelationValues};
use small_sets::STAYS;
use std::fmt::Debug;

/// Values that each of the writers takes. Answers are numbers, as a C host gets them.
pub trait Written: Values + Debug + PartialEq {
    fn numbers(&self) -> Numbers;

    /// The call on these places.
    fn call(&self, values: &[u8], line: &mut [u8]) -> u64;

    /// The wrapper, where it has a name for the letter and the state.
    fn wrapped(&self, line: &mut [u8]) -> Option<u64>;

    fn naive(&self, line: &mut [u8]) -> u64;

    /// The values that the places say: the lowest number is an absent value there.
    fn as_carried(&self) -> Self;
}

impl Written for PointValues {
    fn numbers(&self) -> Numbers {
        carried::of_point(self)
    }

    fn call(&self, values: &[u8], line: &mut [u8]) -> u64 {
        archive::write_point(self.letter, values, line)
    }

    fn wrapped(&self, line: &mut [u8]) -> Option<u64> {
        let (file, point) = carried::point(self)?;
        Some(written(point.write(file, line)))
    }

    fn naive(&self, line: &mut [u8]) -> u64 {
        naive::write_point(self, line).host_number()
    }

    fn as_carried(&self) -> Self {
        let held = |value: Option<i64>| value.filter(|value| *value != ABSENT);
        PointValues {
            static_correction: held(self.static_correction),
            uphole: held(self.uphole),
            water_depth: held(self.water_depth),
            ..*self
        }
    }
}

impl Written for RelationValues {
    fn numbers(&self) -> Numbers {
        carried::of_relation(self)
    }

    fn call(&self, values: &[u8], line: &mut [u8]) -> u64 {
        archive::write_relation(values, line)
    }

    fn wrapped(&self, line: &mut [u8]) -> Option<u64> {
        Some(written(carried::relation(self).write(line)))
    }

    fn naive(&self, line: &mut [u8]) -> u64 {
        naive::write_relation(self, line).host_number()
    }

    fn as_carried(&self) -> Self {
        *self
    }
}

/// Holds the writers together, in every byte of a slice of this length, and returns the number
/// of the call.
pub fn hold<V: Written>(values: &V, length: usize) -> u64 {
    let places = bytes_of(values.numbers());
    let call = lent(STAYS, length, |line| values.call(&places, line));
    let naive = lent(STAYS, length, |line| values.as_carried().naive(line));
    assert_eq!(call, naive, "{length} bytes, {values:?}");
    if let (Some(wrapped), line) = lent(STAYS, length, |line| values.wrapped(line)) {
        let naive = lent(STAYS, length, |line| values.naive(line));
        assert_eq!((wrapped, line), naive, "the wrapper, {length} bytes, {values:?}");
    }
    call.0
}
