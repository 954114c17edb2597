//! The iterator of the wrapper: its buffer, its refusals and its end.

use crate::wrapped::wrapped;
use small_sets::place::first;
use small_sets::{headers_only, set_a, File, Set};
use sps::{Number, Refusal, Row};

fn refused() -> Set {
    set_a().put(File::X, first(), 43, "   4")
}

/// Buffers that are lent and given, of every kind.
#[test]
fn buffers() {
    let set = set_a();
    let set = wrapped(&set);
    let rows: Vec<Result<Row, Refusal>> = set.rows().collect();
    assert_eq!(rows.len(), 3);
    let (mut array, mut vec) = ([0; 40], vec![0; 16]);
    assert!(set.rows_with(&mut array[..]).eq(rows.clone()));
    assert!(set.rows_with(&mut vec).eq(rows.clone()));
    assert!(set.rows_with([0; 16]).eq(rows.clone()));
    assert!(set.rows_with(vec![0; 1_000].into_boxed_slice()).eq(rows));
}

/// A buffer without room for a row is refused after the set, and only where there is a trace.
#[test]
fn too_short() {
    let refusal = |set: &Set, length: usize| {
        let mut rows = wrapped(set).rows_with(vec![0; length]);
        let refusal = rows.next();
        assert!(rows.next().is_none() && rows.next().is_none());
        refusal.map(|row| row.expect_err("no room").number)
    };
    for length in 0..16 {
        assert_eq!(refusal(&set_a(), length), Some(Number::SliceLength));
        assert_eq!(refusal(&refused(), length), Some(Number::Channels));
        assert_eq!(refusal(&headers_only(), length), None);
    }
}

#[test]
fn refused_once() {
    let set = refused();
    let expected = wrapped(&set).cross().expect_err("a refused set");
    let mut rows = wrapped(&set).rows();
    assert_eq!(rows.next(), Some(Err(expected)));
    assert_eq!(rows.size_hint(), (0, Some(0)));
    assert_eq!(rows.next(), None);
    assert_eq!(wrapped(&set).rows().collect::<Result<Vec<_>, _>>(), Err(expected));
    assert_eq!(wrapped(&set).row_bytes(0, &mut [0; 16]), Err(expected));
}

/// How many rows are left is known once the first is given out, over the ends of chunks.
#[test]
fn left() {
    let set = set_a();
    let mut rows = wrapped(&set).rows_with([0; 2 * 16 + 5]);
    assert_eq!(rows.size_hint(), (0, None));
    for left in (0..3).rev() {
        assert!(rows.next().is_some_and(|row| row.is_ok()));
        assert_eq!(rows.size_hint(), (left, Some(left)));
    }
    assert!(rows.next().is_none() && rows.next().is_none());
    assert_eq!(wrapped(&headers_only()).rows().next(), None);
}

/// The iterator outlives the set that it is asked of, and borrows the files alone.
#[test]
fn borrows_the_files() {
    let files = set_a();
    let rows = {
        let set = wrapped(&files);
        set.rows()
    };
    let channels: Result<Vec<u32>, Refusal> = rows.map(|row| Ok(row?.channel)).collect();
    assert_eq!(channels, Ok(vec![1, 2, 3]));
}
