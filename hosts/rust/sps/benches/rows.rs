//! How long all traces of a set take as rows: by `sps_traces` in one slice and by the wrapper as
//! typed rows, in chunks of 4 MB, beside one check, and beside a plain loop that writes the same
//! rows from parsed numbers and checks nothing. All give the same rows at each turn. Times are of
//! the processor, so that other work on the machine does not count. The table is Markdown.
//!
//! `cargo bench -p sps --bench rows`

#[path = "clock/clock.rs"]
mod clock;
#[path = "plain/plain.rs"]
mod plain;
#[allow(dead_code)]
#[path = "../tests/common/wrapped.rs"]
mod wrapped;

use clock::cpu_time;
use many_sets::large::{COMMON, FULL, ON_TAPE};
use small_sets::Set;
use sps::{Refusal, Row};
use std::fmt::Debug;
use wrapped::wrapped;

/// How many checks the call may take for all rows, and the wrapper.
const MOST: [f64; 2] = [10.0, 20.0];

const ROUNDS: usize = 20;

fn main() {
    println!("| set | rows | one check ms | sps_traces ms | plain loop ms | set.rows() ms |");
    println!("|---|--:|--:|--:|--:|--:|");
    let [legal, _] = COMMON;
    let [tape] = ON_TAPE;
    let times = [legal, tape].map(|(name, make)| (name, run(name, &make(FULL))));
    println!();
    println!("| limit | most | found | |");
    println!("|---|--:|--:|---|");
    for (name, checks) in times {
        for ((way, most), found) in ["sps_traces", "set.rows()"].into_iter().zip(MOST).zip(checks) {
            let met = if found <= most { "met" } else { "not met" };
            println!("| {name}: checks of {way} | {most} | {found:.1} | {met} |");
        }
    }
}

/// How many checks the call takes, and the wrapper: each runs once a round, and its best round
/// counts.
fn run(name: &str, files: &Set) -> [f64; 2] {
    let set = wrapped(files);
    let traces = set.cross().expect("an accepted set").traces;
    let [mut proved, mut plain] = [0xAA, 0xBB].map(|byte| vec![byte; 16 * traces as usize]);
    let parsed = plain::parsed(files);
    assert_eq!(set.row_bytes(0, &mut proved), Ok(traces), "{name}");
    let expected = Ok(sum_of_bytes(files, &proved));
    let mut best = [f64::MAX; 4];
    for _ in 0..ROUNDS {
        let times = [
            timed(name, Ok(traces), || set.cross().map(|accepted| accepted.traces)),
            timed(name, Ok(traces), || set.row_bytes(0, &mut proved)),
            timed(name, traces, || plain::write(&parsed, &mut plain)),
            timed(name, expected, || sum(set.rows())),
        ];
        assert!(proved == plain, "{name}: the rows differ");
        best.iter_mut().zip(times).for_each(|(best, time)| *best = best.min(time));
    }
    let [check, call, floor, typed] = best;
    println!("| {name} | {traces} | {check:.2} | {call:.2} | {floor:.2} | {typed:.2} |");
    [call / check, typed / check]
}

/// How long a call takes, in milliseconds of the processor; it gives the answer.
fn timed<A: Debug + PartialEq>(name: &str, expected: A, call: impl FnOnce() -> A) -> f64 {
    let began = cpu_time();
    let answer = call();
    let time = cpu_time() - began;
    assert_eq!(answer, expected, "{name}");
    time.as_secs_f64() * 1e3
}

/// All that stands in the rows, in one number that their order changes.
fn sum(mut rows: impl Iterator<Item = Result<Row, Refusal>>) -> Result<u64, Refusal> {
    rows.try_fold(0, |sum, row| Ok(added(sum, &row?)))
}

fn added(sum: u64, row: &Row) -> u64 {
    let [a, b, c, d, e, f] = row.tape;
    let tape = u64::from_be_bytes([0, 0, a, b, c, d, e, f]);
    let receiver = u64::from(row.r_line) << 16 | u64::from(row.component) << 8;
    let channel = u64::from(row.x_line) << 32 | u64::from(row.channel);
    let all = tape ^ u64::from(row.record) << 48 ^ receiver ^ u64::from(row.killed) ^ channel;
    sum.rotate_left(1) ^ all
}

/// The same of rows as bytes, with tape and record from the lines of X.
fn sum_of_bytes(set: &Set, bytes: &[u8]) -> u64 {
    let medium = naive::medium(set.medium as u64).expect("a medium");
    let line = |x_line: u32| naive::relation_at(medium, &set.x, x_line.into()).expect("a line");
    let number = |part: &[u8]| part.iter().rev().fold(0, |number, byte| number << 8 | *byte as u32);
    let (mut last, mut relation) = (0, None);
    bytes.chunks_exact(16).fold(0, |sum, place| {
        let x_line = number(&place[..4]);
        if x_line != last {
            (last, relation) = (x_line, Some(line(x_line)));
        }
        let relation = relation.expect("lines count from 1");
        let row = Row {
            tape: relation.tape,
            record: relation.record as u32,
            channel: number(&place[4..8]),
            r_line: number(&place[8..12]),
            component: place[12],
            killed: place[13] == 1,
            x_line,
        };
        added(sum, &row)
    })
}
