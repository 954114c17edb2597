//! Joins the set in a folder with a trace store as a sorted merge, and prints the traces that the
//! store lacks. A line of the store is the tape, the record and the channel of a trace, with commas
//! between them; lines ascend.
//!
//!     cargo run --example join -- ../../examples/killed sps/examples/store.csv

use sps::{Medium, Row, Set};
use std::{env, error::Error, fs, path::PathBuf};

/// Tape, record and channel, which name a trace.
type Key = ([u8; 6], u32, u32);

fn key(row: &Row) -> Key {
    (row.tape, row.record, row.channel)
}

/// The key in a line of the store; a tape gets its blanks.
fn stored(line: &str) -> Option<Key> {
    let (rest, channel) = line.rsplit_once(',')?;
    let (tape, record) = rest.rsplit_once(',')?;
    let tape = format!("{tape:6}").into_bytes().try_into().ok()?;
    Some((tape, record.parse().ok()?, channel.parse().ok()?))
}

fn main() -> Result<(), Box<dyn Error>> {
    let mut words = env::args_os().skip(1);
    let folder = PathBuf::from(words.next().ok_or("a folder is needed")?);
    let store = fs::read_to_string(words.next().ok_or("a trace store is needed")?)?;
    let r = fs::read(folder.join("set.r01"))?;
    let s = fs::read(folder.join("set.s01"))?;
    let x = fs::read(folder.join("set.x01"))?;

    // Rows come in the order of X, in which records stand as they were shot.
    let set = Set::new(Medium::Disc, &r, &s, &x);
    let mut rows = set.rows().collect::<Result<Vec<Row>, _>>()?;
    rows.sort_unstable_by_key(key);
    let keys: Option<Vec<Key>> = store.lines().map(stored).collect();
    let keys = keys.ok_or("a line of the store is not a tape, a record and a channel")?;
    if !keys.is_sorted() {
        return Err("the lines of the store do not ascend".into());
    }

    let (mut keys, mut lacks) = (keys.into_iter().peekable(), 0);
    for row in &rows {
        while keys.next_if(|stored| *stored < key(row)).is_some() {}
        if keys.next_if_eq(&key(row)).is_none() {
            let Row { record, channel, r_line, component, .. } = row;
            let (tape, killed) =
                (row.tape.escape_ascii(), if row.killed { ", killed" } else { "" });
            println!("{tape},{record},{channel}: R line {r_line}, component {component}{killed}");
            lacks += 1;
        }
    }
    println!("the store lacks {lacks} of {} traces", rows.len());
    Ok(())
}
