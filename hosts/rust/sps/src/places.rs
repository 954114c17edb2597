//! The places in which the values of a line go over: sixteen numbers of eight bytes, the low
//! byte first, signed ones in two's complement.

use crate::refusal::answer;
use crate::Refusal;

/// The numbers of the places.
pub type Numbers = [u64; 16];

/// What stands for an absent value.
const ABSENT: i64 = i64::MIN;

/// What a call answers that reads a line, and the numbers that it writes.
pub fn read(call: impl FnOnce(&mut [u8]) -> u64) -> Result<(u64, Numbers), Refusal> {
    let mut places = [[0; 8]; 16];
    let number = answer(call(places.as_flattened_mut()))?;
    Ok((number, places.map(u64::from_le_bytes)))
}

/// What a call answers that writes a line from these numbers.
pub fn write(numbers: Numbers, call: impl FnOnce(&[u8]) -> u64) -> Result<(), Refusal> {
    answer(call(numbers.map(u64::to_le_bytes).as_flattened()))?;
    Ok(())
}

/// A value that may be absent.
pub fn held(number: u64) -> Option<i64> {
    Some(number as i64).filter(|value| *value != ABSENT)
}

/// Its number. The value that would be taken for an absent one goes over as the next, which no
/// line has either.
pub fn number_of_held(value: Option<i64>) -> u64 {
    value.map_or(ABSENT, |value| value.max(ABSENT + 1)) as u64
}

/// The sixteen bytes of two numbers, the high byte of each first.
pub fn name(high: u64, low: u64) -> [u8; 16] {
    (u128::from(high) << 64 | u128::from(low)).to_be_bytes()
}

/// The two numbers of sixteen bytes.
pub fn numbers_of_name(name: [u8; 16]) -> [u64; 2] {
    let number = u128::from_be_bytes(name);
    [(number >> 64) as u64, number as u64]
}

#[cfg(test)]
mod tests {
    use super::*;

    #[test]
    fn held_values() {
        for value in [None, Some(0), Some(-1), Some(i64::MIN + 1), Some(i64::MAX)] {
            assert_eq!(held(number_of_held(value)), value);
        }
        assert_eq!(number_of_held(None), 1 << 63);
        assert_eq!(number_of_held(Some(i64::MIN)), (1 << 63) + 1);
    }

    #[test]
    fn names() {
        let bytes = *b"ABCDEFGHabcdefg\xFF";
        assert_eq!(numbers_of_name(bytes), [0x4142_4344_4546_4748, 0x6162_6364_6566_67FF]);
        assert_eq!(name(0x4142_4344_4546_4748, 0x6162_6364_6566_67FF), bytes);
    }
}
