//! Merges the relation files of two crews line by line, in the order of their shots, and
//! cross-checks the set. Both folders hold the R and the S of the survey.
//!
//!     cargo run --example merge -- ../../examples/crew_one ../../examples/crew_two

use sps::{read_point, read_relation, File, Medium::Disc, Set};
use std::{env, error::Error, fs, ops::RangeInclusive, path::PathBuf};

/// The lines below the header of a file.
fn own_lines(file: &[u8]) -> RangeInclusive<u64> {
    let lines = file.chunks_exact(82);
    let header = lines.clone().take_while(|line| line[0] == b'H').count();
    header as u64 + 1..=lines.len() as u64
}

fn main() -> Result<(), Box<dyn Error>> {
    let folders: Vec<PathBuf> = env::args_os().skip(1).map(PathBuf::from).collect();
    let [one, other] = &folders[..] else { return Err("two folders are needed".into()) };
    let (r, s) = (fs::read(one.join("set.r01"))?, fs::read(one.join("set.s01"))?);
    let crews = [fs::read(one.join("set.x01"))?, fs::read(other.join("set.x01"))?];

    let mut shots = Vec::new();
    for line in own_lines(&s) {
        let shot = read_point(Disc, File::S, &s, line)?;
        shots.push((shot.name, shot.number, shot.index));
    }
    let mut relations = Vec::new();
    for x in &crews {
        for line in own_lines(x) {
            relations.push(read_relation(Disc, x, line)?);
        }
    }
    // Lines of one shot stay in the order that their crew has.
    relations.sort_by_key(|relation| {
        let source = (relation.source_name, relation.source_number, relation.source_index);
        shots.iter().position(|shot| *shot == source)
    });

    let header = *own_lines(&crews[0]).start() as usize - 1;
    let mut x = crews[0][..82 * header].to_vec();
    for relation in relations {
        let mut line = [0; 82];
        relation.write(&mut line)?;
        println!("{}", String::from_utf8_lossy(&line[..80]));
        x.extend(line);
    }
    println!("{}", Set::new(Disc, &r, &s, &x).cross()?);
    Ok(())
}
