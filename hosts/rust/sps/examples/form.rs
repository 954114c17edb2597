//! Checks the form of one file, as the kind that a letter names.
//!
//!     cargo run --example form -- ../../examples/odd_channel/set.r01 R
//!     cargo run --example form -- ../../examples/set_a_tape/set.x01 X --tape

use sps::{form, File, Medium};
use std::{env, error::Error, fs};

fn main() -> Result<(), Box<dyn Error>> {
    let mut words = env::args_os().skip(1);
    let file = fs::read(words.next().ok_or("a file is needed")?)?;
    let kind = match words.next().as_deref().and_then(|word| word.to_str()) {
        Some("R") => File::R,
        Some("S") => File::S,
        Some("X") => File::X,
        _ => return Err("a kind is needed: R, S or X".into()),
    };
    let tape = words.next().is_some_and(|word| word == "--tape");
    let medium = if tape { Medium::Tape } else { Medium::Disc };

    match form(medium, kind, &file) {
        Ok(()) => println!("well formed"),
        Err(refusal) => println!("{refusal}: {}", refusal.number),
    }
    Ok(())
}
