//! How long the proved cross-check takes beside the naive reader: on surveys of 100,
//! 1,000 and 9,999 lines a file, made by `many_sets` from a fixed seed, then on large
//! sets, one of them on tape too, and on those made to take long. Both give the same
//! answer at each turn. Times are of the processor, so that other work on the machine does not
//! count. How they grow, whether they keep the limits, and how long the whole took, comes last.
//! The tables are Markdown.
//!
//! `cargo bench -p sps --bench cross -- WORDS` runs the sets that have the words in
//! their names.

#[allow(dead_code)]
#[path = "../tests/sets/answers.rs"]
mod answers;
#[path = "clock/clock.rs"]
mod clock;
#[path = "../tests/common/wrapped.rs"]
mod wrapped;

use answers::{naive, proved, Answer};
use clock::cpu_time;
use many_sets::large::{measured, COMMON, FULL, SEEDED};
use small_sets::Set;
use std::collections::BTreeMap;
use std::env;
use std::time::{Duration, Instant};

/// A reader runs at least twice, then on until it has had this time of the processor.
const ENOUGH: Duration = Duration::from_millis(500);

/// Each reader at its best, in milliseconds of the processor.
#[derive(Clone, Copy)]
struct Times {
    naive: f64,
    proved: f64,
}

fn main() {
    let began = Instant::now();
    let words: Vec<String> = env::args().skip(1).filter(|word| !word.starts_with('-')).collect();
    println!("| set | answer | naive ms | proved ms | MB/s | ratio |");
    println!("|---|---|--:|--:|--:|--:|");
    let mut times = BTreeMap::new();
    for (name, make) in measured() {
        if words.iter().all(|word| name.contains(word)) {
            times.insert(name, run(name, &make(FULL)));
        }
    }
    growth(&times);
    limits(&times);
    let (whole, cpu) = (began.elapsed().as_secs_f64(), cpu_time().as_secs_f64());
    println!("\n{} sets in {whole:.0} s, of which {cpu:.0} s of the processor", times.len());
}

fn run(name: &str, set: &Set) -> Times {
    let expected = naive(set);
    let [naive, proved] = [naive, proved].map(|reader| best(name, set, reader, expected));
    let bytes = (set.r.len() + set.s.len() + set.x.len()) as f64;
    let shown = expected.map_or_else(|refusal| refusal.to_string(), |counts| counts.to_string());
    let speed = bytes / 1e3 / proved;
    let ratio = proved / naive;
    println!("| {name} | {shown} | {naive:.2} | {proved:.2} | {speed:.1} | {ratio:.2} |");
    Times { naive, proved }
}

/// The shortest turn of a reader; each turn gives the answer.
fn best(name: &str, set: &Set, reader: fn(&Set) -> Answer, expected: Answer) -> f64 {
    let began = cpu_time();
    let mut best = Duration::MAX;
    let mut turns = 0;
    while turns < 2 || cpu_time() - began < ENOUGH {
        let turn = cpu_time();
        let answer = reader(set);
        best = best.min(cpu_time() - turn);
        assert_eq!(answer, expected, "{name}");
        turns += 1;
    }
    best.as_secs_f64() * 1e3
}

/// How the times grow with the lines.
fn growth(times: &BTreeMap<&str, Times>) {
    println!();
    println!("| from | to | naive times | proved times |");
    println!("|---|---|--:|--:|");
    for pair in SEEDED.windows(2) {
        let (few, many) = (pair[0].0, pair[1].0);
        if let (Some(before), Some(after)) = (times.get(few), times.get(many)) {
            let (naive, proved) = (after.naive / before.naive, after.proved / before.proved);
            println!("| {few} | {many} | {naive:.1} | {proved:.1} |");
        }
    }
}

/// What the proved call is held to. Times differ from run to run, so that nothing ends
/// here where a limit is not met.
fn limits(times: &BTreeMap<&str, Times>) {
    let [_, (few, _), (many, _)] = SEEDED;
    let [(survey, _), _] = COMMON;
    let ms = |name: &str| times.get(name).map(|times| times.proved);
    let ratio = |name: &str| times.get(name).map(|times| times.proved / times.naive);
    let growth = ms(few).zip(ms(many)).map(|(few, many)| many / few);
    println!();
    println!("| limit | most | found | |");
    println!("|---|--:|--:|---|");
    for (name, most, found) in [
        (format!("{survey}: ms"), 5.0, ms(survey)),
        (format!("{survey}: ratio"), 0.04, ratio(survey)),
        (format!("{many}: ms"), 8.0, ms(many)),
        (format!("{many}: ratio"), 0.5, ratio(many)),
        (format!("{few} to {many}: times"), 14.0, growth),
    ] {
        if let Some(found) = found {
            let met = if found <= most { "met" } else { "not met" };
            println!("| {name} | {most} | {found:.3} | {met} |");
        }
    }
}
