//! Prints the spread table of a record: where each of its channels comes from.
//!
//!     cargo run --example spread -- ../../examples/three_components

use sps::{Medium, Set};
use std::{env, error::Error, fs, path::PathBuf};

fn main() -> Result<(), Box<dyn Error>> {
    let folder = PathBuf::from(env::args_os().nth(1).ok_or("a folder is needed")?);
    let r = fs::read(folder.join("set.r01"))?;
    let s = fs::read(folder.join("set.s01"))?;
    let x = fs::read(folder.join("set.x01"))?;

    // Room for every channel that there can be.
    let (mut lines, mut components) = ([0; 9_999], [0; 9_999]);
    let record = Set::new(Medium::Disc, &r, &s, &x).record(b"100   ", 11);
    let highest = record.spread(&mut lines, &mut components)?;

    println!("highest channel {highest}");
    for (channel, (line, component)) in (1..=highest).zip(lines.iter().zip(&components)) {
        match line {
            0 => println!("channel {channel}: not covered"),
            _ => println!("channel {channel}: R line {line}, component {component}"),
        }
    }
    Ok(())
}
