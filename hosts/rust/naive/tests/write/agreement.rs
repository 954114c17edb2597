//! Channels and receivers: their borders, and whether they agree.

use crate::written::{relation, relation_of_a};
use naive::RelationValues;

/// From and to channel, channel increment, from and to receiver.
type Numbers = [u64; 5];

fn with(
    [from_channel, to_channel, channel_increment, from_receiver, to_receiver]: Numbers,
) -> RelationValues {
    RelationValues {
        from_channel,
        to_channel,
        channel_increment,
        from_receiver,
        to_receiver,
        ..relation_of_a()
    }
}

#[test]
fn taken() {
    let rows: [(Numbers, &str); 16] = [
        ([1, 3, 1, 101, 103], "   1   31"),
        ([1, 3, 1, 103, 101], "   1   31"),
        ([1, 9, 3, 101, 103], "   1   93"),
        ([1, 6, 2, 103, 101], "   1   62"),
        ([1, 1, 1, 0, 0], "   1   11"),
        ([9, 9, 1, 7, 7], "   9   91"),
        ([9, 10, 1, 9, 10], "   9  101"),
        ([99, 100, 1, 100, 99], "  99 1001"),
        ([999, 1_000, 2, 999, 999], " 99910002"),
        ([9_999, 9_999, 1, 99_999_999, 99_999_999], "999999991"),
        ([9_998, 9_999, 1, 99_999_998, 99_999_999], "999899991"),
        ([9_998, 9_999, 1, 99_999_999, 99_999_998], "999899991"),
        ([1, 9_999, 1, 0, 9_998], "   199991"),
        ([1, 9_999, 1, 99_999_999, 99_990_001], "   199991"),
        ([1, 9_999, 9, 1_110, 0], "   199999"),
        ([1, 9, 9, 10_000_000, 10_000_000], "   1   99"),
    ];
    for (numbers, channels) in rows {
        let [.., from, to] = numbers;
        let expected = small_sets::relation().at(39, channels).receivers(from as u32, to as u32);
        assert_eq!(relation(&with(numbers)), Ok(expected), "{numbers:?}");
    }
}

#[test]
fn disagreeing() {
    let rows: [Numbers; 13] = [
        // F above T.
        [2, 1, 1, 101, 101],
        [2, 1, 1, 101, 102],
        [3, 1, 1, 103, 101],
        [9_999, 1, 1, 101, 101],
        // T-F+1 no multiple of I.
        [1, 3, 2, 101, 103],
        [1, 3, 2, 103, 102],
        [1, 1, 2, 101, 101],
        [1, 8, 9, 101, 101],
        // Another number of receivers.
        [1, 4, 1, 101, 103],
        [1, 2, 1, 103, 101],
        [1, 3, 3, 101, 103],
        [1, 3, 1, 101, 101],
        [1, 1, 1, 0, 99_999_999],
    ];
    for numbers in rows {
        assert_eq!(relation(&with(numbers)), Err(22), "{numbers:?}");
    }
}

/// Numbers that agree, but of which one is out of its range at least; with an increment of 0
/// none agree.
#[test]
fn out_of_range() {
    let rows: [Numbers; 13] = [
        [0, 2, 1, 101, 103],
        [0, 0, 1, 101, 101],
        [10_000, 10_000, 1, 101, 101],
        [9_998, 10_000, 1, 101, 103],
        [u64::MAX - 2, u64::MAX, 1, 101, 103],
        [1, 3, 0, 101, 103],
        [1, 0, 0, 101, 101],
        [1, 10, 10, 101, 101],
        [1, 3 * 257, 257, 101, 103],
        [1, 2, 1, 99_999_999, 100_000_000],
        [1, 2, 1, 100_000_000, 99_999_999],
        [1, 1, 1, 100_000_000, 100_000_000],
        [1, u64::MAX, 1, 0, u64::MAX - 1],
    ];
    for numbers in rows {
        assert_eq!(relation(&with(numbers)), Err(22), "{numbers:?}");
    }
}

/// Numbers whose low bytes agree: one of the five, both channels, or both receivers is longer.
#[test]
fn low_bytes_alone() {
    const LONGER: [&[usize]; 7] = [&[0], &[1], &[2], &[3], &[4], &[0, 1], &[3, 4]];
    for longer in LONGER {
        // A receiver may have more than two bytes.
        let fewest = if longer == [3, 4] { 32 } else { 16 };
        for bits in [fewest, 32, 48, 63] {
            let mut numbers = [1, 3, 1, 101, 103];
            longer.iter().for_each(|&at| numbers[at] += 1 << bits);
            assert_eq!(relation(&with(numbers)), Err(22), "{numbers:?}");
        }
    }
}
