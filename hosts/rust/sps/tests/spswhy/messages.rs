//! The table of messages in the docs.

use crate::message::{page, Row};
use crate::{folder, said, spswhy};
use std::fs;

/// The page is what the program prints of its own table.
#[test]
fn as_printed() {
    let (status, printed, why) = said(spswhy(&folder("as_printed"), &["--messages"]));
    assert_eq!((status, why.as_str()), (Some(0), ""));
    let page = fs::read_to_string(page()).expect("the table of messages");
    assert!(page == printed, "`spswhy --messages` prints another page:\n{printed}");
}

/// Every number has a row.
#[test]
fn every_number() {
    let numbers: Vec<u64> = Row::all().iter().map(|row| row.number.into()).collect();
    for number in sps::Number::ALL {
        assert!(numbers.contains(&number.code()), "{number:?}");
    }
}
