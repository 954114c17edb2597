//! The first command, `./build`, with an `rt` and a `cargo` of the test's own, so that nothing is
//! proved twice.

use crate::tools::{copy, output, outside, root, text};
use std::fs;
use std::io::{BufRead, BufReader};
use std::os::unix::fs::{symlink, PermissionsExt};
use std::path::{Path, PathBuf};
use std::process::{Command, Stdio};
use std::time::{Duration, Instant};

/// Proves the crate that it is called in, and is quiet for some seconds over the library.
const RT: &str = r#"#!/bin/sh
name=${PWD##*/}
[ "$1" = version ] && { echo "rt version" >>asked; echo "${RT_VERSION:-}"; exit; }
echo "$name: rt $*" >>../../asked
mkdir -p out
[ "$name" = sps ] || { echo "fn $name::some: proved"; exit; }
[ -z "${RT_FAILS:-}" ] || { echo "rattle build: nothing was built" >&2; exit 1; }
sleep "${RT_SLEEPS:-0}"
echo archive >out/libsps.a
"#;

const CARGO: &str = "#!/bin/sh\necho \"cargo $*\" >>asked\n";

/// What the script calls, beside `rt` and `cargo`.
const TOOLS: [&str; 15] = [
    "awk", "bash", "cat", "cc", "cp", "cut", "dirname", "env", "find", "mkdir", "sh", "sleep",
    "tail", "tee", "touch",
];

fn script(place: &Path, text: &str) {
    fs::write(place, text).expect("a script");
    fs::set_permissions(place, fs::Permissions::from_mode(0o755)).expect("a script");
}

/// A repository of three crates, and one that `sps` does not need, with tools of its own.
fn repository(name: &str, tools: &[(&str, &str)]) -> PathBuf {
    let place = outside(name);
    for file in ["build", "toolchain.txt"] {
        copy(&root().join(file), &place.join(file)).expect("a copy");
    }
    for name in ["rules", "lines", "sps", "files"] {
        fs::create_dir_all(place.join("crates").join(name).join("src")).expect("a folder");
    }
    fs::create_dir(place.join("bin")).expect("a folder");
    let crates = "rules:\nlines: rules\nsps staticlib: rules lines\nfiles: rules io\n";
    fs::write(place.join("crates.txt"), crates).expect("a file");
    let path = std::env::var_os("PATH").expect("a path");
    for tool in TOOLS {
        let mut places = std::env::split_paths(&path).map(|folder| folder.join(tool));
        let found = places.find(|file| file.is_file());
        symlink(found.unwrap_or_else(|| panic!("{tool}")), place.join("bin").join(tool))
            .expect("a link");
    }
    for (tool, text) in tools {
        script(&place.join("bin").join(tool), text);
    }
    place
}

/// The script, with the tools of the repository and no others.
fn build(place: &Path) -> Command {
    let mut build = Command::new(place.join("bin/bash"));
    build.arg("build").current_dir(place).env("PATH", place.join("bin"));
    build.env("RT_VERSION", recorded().trim());
    build
}

/// The kit that the repository is proved with.
fn recorded() -> String {
    fs::read_to_string(root().join("toolchain.txt")).expect("the version")
}

fn asked(place: &Path) -> Vec<String> {
    let asked = fs::read_to_string(place.join("asked")).unwrap_or_default();
    asked.lines().map(str::to_owned).collect()
}

const COMPILE: &str =
    "cargo build --offline --quiet --release --manifest-path hosts/rust/Cargo.toml \
                       --target-dir hosts/rust/target --bin spswhy";

/// It says at once that it proves, and at least every ten seconds how far it is.
#[test]
fn progress() {
    let place = repository("build_progress", &[("rt", RT), ("cargo", CARGO)]);
    let began = Instant::now();
    let mut build = build(&place);
    let mut build = build.env("RT_SLEEPS", "11").stdout(Stdio::piped()).spawn().expect("it runs");
    let (mut lines, mut before) = (Vec::new(), began);
    for line in BufReader::new(build.stdout.take().expect("a pipe")).lines() {
        let most = Duration::from_secs(if lines.is_empty() { 2 } else { 10 });
        assert!(before.elapsed() < most, "{:?} before {line:?}", before.elapsed());
        before = Instant::now();
        lines.push(line.expect("text"));
    }
    assert!(build.wait().expect("a status").success());
    assert!(began.elapsed() > Duration::from_secs(10));
    assert!(lines[0].starts_with("proving libsps: 3 crates"), "{lines:?}");
    for told in [
        "proved rules: 1 of 3 crates, ",
        "proved lines: 2 of 3 crates, ",
        "proving: 2 of 3 crates, ",
        "proved sps: 3 of 3 crates, ",
    ] {
        assert!(lines.iter().any(|line| line.starts_with(told)), "{told}: {lines:?}");
    }
    let end = &lines[lines.len() - 2..];
    assert_eq!(end, ["compiling spswhy", "ready: hosts/rust/target/release/spswhy"]);
    let proved = ["rules: rt lib", "lines: rt lib", "sps: rt lib"];
    assert_eq!(asked(&place), [&["rt version"][..], &proved, &[COMPILE]].concat());
}

/// What is proved is not proved again, and needs no `rt`, until a crate changes.
#[test]
fn proved_once() {
    let place = repository("build_again", &[("rt", RT), ("cargo", CARGO)]);
    assert!(output(&mut build(&place)).status.success());
    fs::remove_file(place.join("asked")).expect("what was asked");
    fs::rename(place.join("bin/rt"), place.join("rt")).expect("no rt");
    let again = output(&mut build(&place));
    assert!(again.status.success(), "{again:?}");
    assert!(text(&again.stdout).starts_with("libsps is proved: target/staticlib/libsps.a\n"));
    assert_eq!(asked(&place), [COMPILE]);

    fs::rename(place.join("rt"), place.join("bin/rt")).expect("rt");
    fs::write(place.join("crates/rules/src/lib.rt"), "").expect("a changed crate");
    assert!(output(&mut build(&place)).status.success());
    assert!(asked(&place).contains(&"sps: rt lib".to_owned()));
}

/// One line says what is missing, and where it comes from.
#[test]
fn missing_tools() {
    let kit = recorded();
    let kit = kit.split(' ').next().expect("a name");
    let rt = format!("rt is missing (it comes with the Rattle toolchain, the kit {kit})");
    let cargo = "cargo is missing (it comes with Rust, from https://rustup.rs)";
    for (name, tools, said) in [
        ("build_no_rt", &[("cargo", CARGO)][..], rt.clone()),
        ("build_no_cargo", &[("rt", RT)], cargo.to_owned()),
        ("build_no_tools", &[], format!("{rt}; {cargo}")),
    ] {
        let place = repository(name, tools);
        let ended = output(&mut build(&place));
        assert_eq!(
            (ended.status.code(), text(&ended.stderr)),
            (Some(2), format!("build: {said}\n"))
        );
        assert_eq!((text(&ended.stdout), asked(&place).len()), (String::new(), 0));
    }
}

/// Another version of `rt` is told, also where nothing is left to prove, and is no failure.
#[test]
fn versions() {
    let place = repository("build_version", &[("rt", RT), ("cargo", CARGO)]);
    let note = format!(
        "note: rt is another-kit 7; the repository is proved with {}, and another may refuse a \
         proof",
        recorded().trim()
    );
    for (version, noted) in [(recorded().trim(), false), ("another-kit 7", true)] {
        let _ = fs::remove_dir_all(place.join("target"));
        for first in ["proving libsps: ", "libsps is proved: "] {
            let ended = output(build(&place).env("RT_VERSION", version));
            assert!(ended.status.success(), "{ended:?}");
            let said = text(&ended.stdout);
            assert!(said.starts_with(first), "{said}");
            assert_eq!(said.lines().any(|line| line == note), noted, "{said}");
        }
    }
}

/// Where something is not proved, the last lines of `rt` are shown, and nothing is compiled.
#[test]
fn not_proved() {
    let place = repository("build_fails", &[("rt", RT), ("cargo", CARGO)]);
    let ended = output(build(&place).env("RT_FAILS", "yes"));
    assert_eq!(ended.status.code(), Some(1));
    let said = text(&ended.stderr);
    assert!(said.starts_with("build: libsps is not proved; "), "{said}");
    assert!(said.ends_with("rattle build: nothing was built\n"), "{said}");
    assert!(!asked(&place).contains(&COMPILE.to_owned()));
}
