//! Follows a channel to its receiver, and comes back.
//!
//!     cargo run --example follow -- ../../examples/three_components 6

use sps::{Medium, Set};
use std::{env, error::Error, fs, path::PathBuf};

fn main() -> Result<(), Box<dyn Error>> {
    let mut words = env::args_os().skip(1);
    let folder = PathBuf::from(words.next().ok_or("a folder is needed")?);
    let channel = words.next().and_then(|word| word.to_str()?.parse().ok());
    let channel: u64 = channel.ok_or("a channel is needed")?;
    let r = fs::read(folder.join("set.r01"))?;
    let s = fs::read(folder.join("set.s01"))?;
    let x = fs::read(folder.join("set.x01"))?;

    // Tape 100 with its blanks, record 11.
    let record = Set::new(Medium::Disc, &r, &s, &x).record(b"100   ", 11);
    let Some(trace) = record.channel(channel)? else {
        println!("channel {channel}: no trace");
        return Ok(());
    };
    let killed = if trace.killed { ", killed" } else { "" };
    println!("channel {channel}: R line {}, component {}{killed}", trace.r_line, trace.component);

    let back = record.receiver(trace.r_line, trace.component)?;
    println!("and back: channel {}", back.ok_or("the way back is lost")?);
    Ok(())
}
