//! A survey of any number of lines a file, made from a seed.

use super::below_header;
use small_sets::place::last_header;
use small_sets::{marker, receiver, relation, shot, File, Line, Random, Set};

/// Receivers of one line whose numbers follow each other.
struct Run {
    name: String,
    first: u32,
    receivers: u32,
}

/// So many lines in each file, from 100 on: runs of receivers with gaps, markers,
/// and a record of one or two relation lines for each shot. It is accepted.
pub fn seeded(random: &mut Random, lines: usize) -> Set {
    let own = lines - last_header();
    let markers = own / 20;
    let runs = runs(random, own - markers);
    let shots = own - markers;
    let receivers = runs.iter().flat_map(|run| {
        (run.first..run.first + run.receivers).map(|n| receiver(n).name(&run.name))
    });
    let r = with_markers(random, File::R, receivers.collect(), markers);
    let points = in_time(random, (0..shots as u32).map(shot));
    let s = with_markers(random, File::S, points, markers);
    let x: Vec<Line> = (0..shots)
        .flat_map(|n| {
            // A second line for each of the markers of S.
            let two = (n + 1) * markers / shots > n * markers / shots;
            record(random, &runs, n as u32, if two { 2 } else { 1 })
        })
        .collect();
    below_header(r, s, x)
}

/// Five runs of 20 to 39 receivers on each line, so many receivers in all.
fn runs(random: &mut Random, mut receivers: usize) -> Vec<Run> {
    let mut runs: Vec<Run> = Vec::new();
    while receivers > 0 {
        let name = format!("LINE {:03}", runs.len() / 5 + 1);
        let first = match runs.last() {
            Some(before) if before.name == name => before.first + before.receivers + 1,
            _ => 1_000,
        };
        let first = first + random.below(4) as u32;
        let length = (20 + random.below(20)).min(receivers);
        receivers -= length;
        runs.push(Run { name, first, receivers: length as u32 });
    }
    runs
}

/// Shots up to 20 seconds apart.
pub fn in_time(random: &mut Random, shots: impl Iterator<Item = Line>) -> Vec<Line> {
    let mut seconds = 6 * 3_600;
    let later = |shot: Line| {
        seconds += random.below(21) as u32;
        let (day, rest) = (seconds / 86_400, seconds % 86_400);
        let time = format!("{:02}{:02}{:02}", rest / 3_600, rest / 60 % 60, rest % 60);
        shot.day(113 + day).time(&time)
    };
    shots.map(later).collect()
}

/// A record of one or two lines, each on part of a run of its own.
fn record(random: &mut Random, runs: &[Run], n: u32, lines: usize) -> Vec<Line> {
    let start = random.below(runs.len());
    let mut channel = 1;
    let mut line = |run: &Run| {
        let from = random.below(run.receivers as usize) as u32;
        let receivers = 1 + random.below((run.receivers - from) as usize) as u32;
        let components = random.pick(&[1, 1, 1, 3]);
        let line = relation().source(n).record(n).receiver_name(&run.name);
        let line = line.channels(channel, channel + receivers * components - 1);
        channel += receivers * components;
        line.increment(&components.to_string())
            .receivers(run.first + from, run.first + from + receivers - 1)
    };
    (0..lines).map(|at| line(&runs[(start + at) % runs.len()])).collect()
}

/// So many markers anywhere among the points.
fn with_markers(
    random: &mut Random,
    file: File,
    mut points: Vec<Line>,
    markers: usize,
) -> Vec<Line> {
    for _ in 0..markers {
        let at = random.below(points.len() + 1);
        points.insert(at, marker(file));
    }
    points
}
