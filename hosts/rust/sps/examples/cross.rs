//! Cross-checks the set in a folder and says what it holds, or what is wrong with it.
//!
//!     cargo run --example cross -- ../../examples/odd_channel
//!     cargo run --example cross -- ../../examples/set_a_tape --tape

use sps::{Medium, Set};
use std::{env, error::Error, fs, path::PathBuf};

fn main() -> Result<(), Box<dyn Error>> {
    let folder = PathBuf::from(env::args_os().nth(1).ok_or("a folder is needed")?);
    let tape = env::args_os().nth(2).is_some_and(|word| word == "--tape");
    let medium = if tape { Medium::Tape } else { Medium::Disc };
    let r = fs::read(folder.join("set.r01"))?;
    let s = fs::read(folder.join("set.s01"))?;
    let x = fs::read(folder.join("set.x01"))?;

    match Set::new(medium, &r, &s, &x).cross() {
        Ok(accepted) => {
            println!("{accepted}");
            println!("{} receivers, {} shots", accepted.receivers, accepted.shots);
            println!("{} relation lines, {} traces", accepted.relations, accepted.traces);
            println!("{} dead traces", accepted.dead_traces);
        }
        Err(refusal) => {
            println!("{refusal}");
            if let Some(file) = refusal.file {
                println!("in {file}, line {}, column {}", refusal.line, refusal.column);
            }
            println!("number {}: {}", refusal.number.code(), refusal.number);
        }
    }
    Ok(())
}
