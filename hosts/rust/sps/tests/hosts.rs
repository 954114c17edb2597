//! Hosts in C, C++ and Python on the archive and its header: each is compiled where
//! it has to be, and run.

use many_sets::large::{most, two_million_traces, FULL, HOSTILE};
use naive::HostNumber;
use small_sets::place::header_line;
use small_sets::{File, Set};
use std::ffi::OsStr;
use std::fs;
use std::path::{Path, PathBuf};
use std::process::Command;

const ARCHIVE: &str = env!("ARCHIVE");
const WARNINGS: [&str; 4] = ["-Wall", "-Wextra", "-Werror", "-pedantic"];

/// The calls of the archive.
const CALLS: [&str; 12] = [
    "sps_channel",
    "sps_counts",
    "sps_cross",
    "sps_form",
    "sps_read_point",
    "sps_read_relation",
    "sps_spread",
    "sps_table_line",
    "sps_trace",
    "sps_traces",
    "sps_write_point",
    "sps_write_relation",
];

fn root() -> PathBuf {
    Path::new(env!("CARGO_MANIFEST_DIR")).join("../../..")
}

fn header() -> String {
    fs::read_to_string(root().join("include/sps.h")).expect("the header")
}

/// The symbols of the archive, one a line.
fn symbols() -> String {
    run("nm", &[&"-P", &ARCHIVE])
}

/// Set A on disc, and on tape.
fn set_a() -> PathBuf {
    root().join("examples/set_a")
}

fn set_a_tape() -> PathBuf {
    root().join("examples/set_a_tape")
}

/// Three components of each receiver, with a killed one, and a killed shot.
fn killed() -> PathBuf {
    root().join("examples/killed")
}

/// A place below cargo's directory for tests.
fn place(name: &str) -> PathBuf {
    let folder = Path::new(env!("CARGO_TARGET_TMPDIR")).join("hosts");
    fs::create_dir_all(&folder).expect("a folder");
    folder.join(name)
}

/// Runs a program, which has to end well, and returns what it prints.
fn run(program: impl AsRef<OsStr>, words: &[&dyn AsRef<OsStr>]) -> String {
    let mut command = Command::new(program.as_ref());
    let output = command.args(words).output();
    let output = output.unwrap_or_else(|error| panic!("{:?}: {error}", program.as_ref()));
    let text = |bytes| String::from_utf8_lossy(bytes).into_owned();
    assert!(
        output.status.success(),
        "{command:?}: {}\n{}{}",
        output.status,
        text(&output.stdout),
        text(&output.stderr)
    );
    text(&output.stdout)
}

/// Compiles a source of `hosts/c`, with the header, the archive and every warning.
fn compiled(compiler: &str, standard: &str, source: &str, name: &str) -> PathBuf {
    let (program, include) = (place(name), root().join("include"));
    let source = root().join("hosts/c").join(source);
    let [all, extra, error, pedantic] = &WARNINGS;
    run(
        compiler,
        &[
            &standard,
            all,
            extra,
            error,
            pedantic,
            &"-g",
            &"-O1",
            &"-I",
            &include,
            &source,
            &ARCHIVE,
            &"-pthread",
            &"-o",
            &program,
        ],
    );
    program
}

/// The tests in C.
const SOURCES: [&str; 3] = ["calls.c", "lines.c", "rows.c"];

#[test]
fn c() {
    for source in SOURCES {
        let calls = compiled("cc", "-std=c99", source, &format!("{source}_plain"));
        run(calls, &[&set_a(), &set_a_tape(), &killed()]);
    }
}

#[test]
fn cpp() {
    let calls = compiled("c++", "-std=c++11", "calls.cpp", "calls_cpp");
    run(calls, &[&set_a(), &set_a_tape(), &killed()]);
}

/// No byte is read or written that is not lent, and none is read before it is written.
#[test]
fn c_under_valgrind() {
    let strict = ["--quiet", "--error-exitcode=9", "--leak-check=full"];
    let [quiet, code, leaks] = &strict;
    for source in SOURCES {
        let calls = compiled("cc", "-std=c99", source, &format!("{source}_valgrind"));
        run("valgrind", &[quiet, code, leaks, &calls, &set_a(), &set_a_tape(), &killed()]);
    }
}

/// The archive is made into a shared object.
#[test]
fn python() {
    let shared = place("libsps.so");
    let whole = format!("-Wl,--whole-archive,{ARCHIVE},--no-whole-archive");
    run("cc", &[&"-shared", &"-Wl,-z,defs", &"-Wl,-z,text", &whole, &"-o", &shared]);
    let calls = root().join("hosts/python/calls.py");
    run("python3", &[&calls, &shared, &set_a(), &set_a_tape(), &killed()]);
}

/// What the naive reader answers to each call of `stack.c`, as it is printed.
fn answers(set: &Set, record: u32) -> String {
    let (tape, record) = (b"100   ", record.into());
    let medium = naive::medium(set.medium as u64).expect("a medium");
    let files = set.files();
    let (mut lines, mut components) = ([0; 9_999], [0; 9_999]);
    let [r, s, x] = File::ALL
        .map(|file| naive::form(medium, file.kind(), set.file(file)))
        .map(|form| form.host_number());
    let crossed = naive::check(medium, files).host_number();
    let trace = naive::trace(medium, files, tape, record, 200).host_number();
    let channel = naive::channel(medium, files, tape, record, 9_999, 1).host_number();
    let spread =
        naive::spread(medium, files, tape, record, &mut lines, &mut components).host_number();
    let line = naive::table_line(medium, files, b'R'.into(), b"G1").host_number();
    let counts = format!("{crossed} {crossed} {crossed}");
    let sets = format!("{r} {s} {x} {counts} {trace} {channel} {spread} {line}");
    format!("{sets} {}\n", copied(medium, set))
}

/// The same of the last lines of R and X, read and written; on tape one with EOF stands after
/// them.
fn copied(medium: naive::Medium, set: &Set) -> String {
    let end = usize::from(medium == naive::Medium::Tape);
    let [r, x] = [File::R, File::X].map(|file| (set.lines(file) - end) as u64);
    let point = naive::point_at(medium, b'R'.into(), &set.r, r).expect("a receiver");
    let relation = naive::relation_at(medium, &set.x, x).expect("a relation");
    let [mut first, mut second] = [[0; 82]; 2];
    let written = [
        naive::write_point(&point, &mut first).host_number(),
        naive::write_relation(&relation, &mut second).host_number(),
    ];
    format!("{} {} {} {}", point.host_number(), written[0], relation.host_number(), written[1])
}

/// Sets of 9,999 lines a file that differ in what has to be sorted and searched, with a
/// record of each.
fn large_sets() -> Vec<(&'static str, Set, u32)> {
    let (accepted, last_record) = (two_million_traces(), most() - 1);
    let traces = 200 * most();
    let line = 9_999 * 16 + 1;
    let counts = format!("{traces} {traces} {traces}");
    let found = format!("0 0 0 {counts} {line} 200 200 {} 0 0 0 0\n", header_line(600));
    assert_eq!(answers(&accepted, last_record), found);
    let refused = accepted.clone().put(File::X, 9_999, 8, "   0");
    let mut sets = vec![("accepted", accepted, last_record), ("refused", refused, last_record)];
    for (name, make) in HOSTILE {
        match name {
            "one record shuffled" => {
                // A tape has room for one line less.
                let tape = make(FULL - 1).on_tape().expect("characters of a tape");
                sets.extend([(name, make(FULL), 11), ("one record shuffled on tape", tape, 11)]);
            }
            "nine indices in turn"
            | "records of 129 lines"
            | "all shuffled"
            | "all shuffled, half of the receivers killed" => sets.push((name, make(FULL), 8)),
            _ => {}
        }
    }
    sets
}

/// Every call on a stack of the size that `stack.c` has.
#[test]
fn c_with_a_small_stack() {
    let stack = compiled("cc", "-std=c99", "stack.c", "stack");
    let sets = large_sets();
    assert_eq!(sets.len(), 8);
    for (name, set, record) in sets {
        let folder = written(&name.replace(' ', "_"), &set);
        let medium = (set.medium as u64).to_string();
        let printed = run(&stack, &[&medium, &folder, &record.to_string()]);
        assert_eq!(printed, answers(&set, record), "{name}");
    }
}

fn written(name: &str, set: &Set) -> PathBuf {
    let folder = place(name);
    fs::create_dir_all(&folder).expect("a folder");
    for (name, bytes) in [("set.r01", &set.r), ("set.s01", &set.s), ("set.x01", &set.x)] {
        fs::write(folder.join(name), bytes).expect("a file of the set");
    }
    folder
}

/// The archive has the twelve calls, asks for no more than `memset` and its like, and has
/// no memory of its own that is written: it allocates and shares nothing.
#[test]
fn symbols_of_the_archive() {
    let symbols = symbols();
    let mut calls = Vec::new();
    for symbol in symbols.lines() {
        match symbol.split_whitespace().collect::<Vec<_>>()[..] {
            [name, "T", ..] => calls.push(name),
            [name, "U", ..] => assert!(["memset", "memcpy", "memmove"].contains(&name), "{name}"),
            [name, kind, ..] => assert!(["t", "r", "n"].contains(&kind), "{name} is {kind}"),
            _ => {}
        }
    }
    calls.sort_unstable();
    assert_eq!(calls, CALLS);
}

/// The header declares the calls of the archive, and no other.
#[test]
fn calls_of_the_header() {
    let header = header();
    let starts = header.lines().filter_map(|line| line.strip_prefix("uint64_t "));
    let mut declared: Vec<&str> = starts.filter_map(|call| Some(call.split_once('(')?.0)).collect();
    declared.sort_unstable();
    assert_eq!(declared, CALLS);
}

/// Files are checked by the form of one and by the cross-check of three: no `sps_check` is
/// beside these.
#[test]
fn no_call_beside_the_parts() {
    let (symbols, header) = (symbols(), header());
    for call in ["sps_form", "sps_cross"] {
        assert!(symbols.lines().any(|symbol| symbol.starts_with(&format!("{call} T "))));
    }
    assert!(!symbols.contains("sps_check"), "{symbols}");
    assert!(!header.contains("sps_check"));
}

/// The header's names are those of Rust: `SPS_NO_SHOT = 13` is `Number::NoShot`.
#[test]
fn names_of_the_header() {
    let header = header();
    let (_, after) = header.split_once("enum sps_number {").expect("the numbers");
    let (numbers, _) = after.split_once("};").expect("their end");
    let named = |number: sps::Number| {
        let name: String = format!("{number:?}")
            .char_indices()
            .flat_map(|(at, letter)| {
                let part = at > 0 && letter.is_ascii_uppercase();
                part.then_some('_').into_iter().chain([letter.to_ascii_uppercase()])
            })
            .collect();
        format!("SPS_{name} = {}", number.code())
    };
    let expected: Vec<String> = sps::Number::ALL.into_iter().map(named).collect();
    let found: Vec<&str> = numbers
        .lines()
        .filter_map(|line| line.split_once("/*"))
        .map(|(name, _)| name.trim().trim_end_matches(','))
        .collect();
    assert_eq!(found, expected);
}
