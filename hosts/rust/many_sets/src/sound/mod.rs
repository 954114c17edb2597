//! Sound sets of varied shape, with what they hold.

mod crews;
mod headers;
mod names;
mod plan;
mod points;
mod relations;
mod shape;
mod tables;

use crate::lines::marker;
pub use crews::{crews, Crews};
use plan::{Plan, Taken};
use small_sets::{File, Line, Random, Set};

/// A sound set, and its receivers, shots, relation lines, traces and dead traces.
pub struct Sound {
    pub set: Set,
    pub counts: [u64; 5],
}

/// How many numbers follow each other in R, how many shots there are, how many
/// lines a record has, and how many receivers each covers, all at most.
struct Size {
    run: usize,
    shots: usize,
    lines: usize,
    covered: u32,
}

const SMALL: Size = Size { run: 5, shots: 4, lines: 4, covered: 6 };
const WIDE: Size = Size { run: 300, shots: 40, lines: 20, covered: 300 };

/// A set that the paper accepts; most are small.
pub fn sound(random: &mut Random) -> Sound {
    let size = if random.below(100) == 0 { WIDE } else { SMALL };
    let names = names::of_lines(random);
    let plan = Plan::new(random, &size, &names, &mut Taken::default());
    let [r, s, x] = plan.lines(random);
    let header = headers::block(random, &tables::used(&r, &s, &x));
    let r = with_markers(random, File::R, r);
    let s = with_markers(random, File::S, s);
    Sound { set: with_header(&header, [r, s, x]), counts: plan.counts() }
}

/// The header in each of the three files, and their own lines below it.
fn with_header(header: &[Line], [r, s, x]: [Vec<Line>; 3]) -> Set {
    Set::default()
        .each(|set, file| set.add_all(file, header.iter().copied()))
        .add_all(File::R, r)
        .add_all(File::S, s)
        .add_all(File::X, x)
}

/// Markers anywhere among the points.
fn with_markers(random: &mut Random, file: File, mut lines: Vec<Line>) -> Vec<Line> {
    for _ in 0..random.below(3) {
        let at = random.below(lines.len() + 1);
        let line = marker(random, file);
        // One that stands as if it were the point beside it.
        let line = match lines.get(at) {
            Some(beside) if random.below(2) == 0 => beside.code("PM"),
            _ => line,
        };
        lines.insert(at, line);
    }
    lines
}
