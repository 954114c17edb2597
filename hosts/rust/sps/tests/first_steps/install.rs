//! An installed library: what `./install` puts below a prefix, and a program that is compiled by
//! what `pkg-config` says of it.

use crate::clone::built;
use crate::tools::{folder, output, printed, root, text};
use std::fs;
use std::path::{Path, PathBuf};
use std::process::Command;

/// What is installed, below the prefix.
const FILES: [&str; 6] = [
    "bin/spswhy",
    "include/sps.h",
    "lib/libsps.a",
    "lib/libsps.so",
    "lib/libsps.so.0",
    "lib/pkgconfig/sps.pc",
];

fn install(words: &[&Path]) -> Command {
    let mut install = Command::new("./install");
    install.args(words).current_dir(built()).env_remove("DESTDIR");
    install
}

/// The files below a folder, in order.
fn files_below(folder: &Path) -> Vec<PathBuf> {
    let entries =
        fs::read_dir(folder).expect("a folder").map(|entry| entry.expect("a file").path());
    let mut files: Vec<PathBuf> = entries
        .flat_map(|path| if path.is_dir() { files_below(&path) } else { vec![path] })
        .collect();
    files.sort();
    files
}

/// What `pkg-config` says of the library.
fn flags(prefix: &Path, asked: &str) -> Vec<String> {
    let mut said = Command::new("pkg-config");
    said.arg(asked).arg("sps").env("PKG_CONFIG_PATH", prefix.join("lib/pkgconfig"));
    printed(&mut said).split_whitespace().map(str::to_owned).collect()
}

#[test]
fn example_with_pkg_config() {
    let prefix = folder("installed");
    let said = printed(&mut install(&[&prefix]));
    assert_eq!(said, format!("installed below {}\n", prefix.display()));
    assert_eq!(files_below(&prefix), FILES.map(|name| prefix.join(name)));

    let program = prefix.join("example");
    let mut compile = Command::new("cc");
    compile.arg(root().join("hosts/c/example.c")).args(flags(&prefix, "--cflags"));
    compile.args(flags(&prefix, "--libs")).arg("-o").arg(&program);
    printed(compile.current_dir(&prefix));
    let set = root().join("examples/set_a");
    let mut example = Command::new(&program);
    example.args(["set.r01", "set.s01", "set.x01"].map(|name| set.join(name)));
    // It is linked with the shared object, by its soname.
    assert_eq!(output(example.env_remove("LD_LIBRARY_PATH")).status.code(), Some(127));
    let said = printed(example.env("LD_LIBRARY_PATH", prefix.join("lib")));
    assert!(said.starts_with("3 receivers, 1 shots, 3 traces, 0 dead\n"), "{said}");

    let r = set.join("set.r01");
    let said = printed(Command::new(prefix.join("bin/spswhy")).args(["--kind", "R"]).arg(r));
    assert_eq!(said, "ACCEPTED\n");
}

/// The prefix is that of the machine on which it is used, the files go below DESTDIR.
#[test]
fn below_destdir() {
    let (stage, prefix) = (folder("staged"), Path::new("/opt/survey"));
    printed(install(&[prefix]).env("DESTDIR", &stage));
    let place = stage.join("opt/survey");
    assert_eq!(files_below(&stage), FILES.map(|name| place.join(name)));
    let said = fs::read_to_string(place.join("lib/pkgconfig/sps.pc")).expect("sps.pc");
    assert!(said.starts_with("prefix=/opt/survey\n"), "{said}");
    assert!(said.contains(&format!("\nVersion: {}\n", env!("CARGO_PKG_VERSION"))), "{said}");
}

/// Without a prefix, and before anything is built, one line says what to do.
#[test]
fn refused() {
    for words in [&[][..], &[Path::new("a"), Path::new("b")], &[Path::new("--help")]] {
        let ended = output(&mut install(words));
        let usage = "usage: [DESTDIR=FOLDER] ./install PREFIX\n";
        assert_eq!((ended.status.code(), text(&ended.stderr)), (Some(2), usage.to_owned()));
    }
    let bare = folder("install_bare");
    fs::copy(root().join("install"), bare.join("install")).expect("a copy");
    let ended = output(Command::new("./install").arg("there").current_dir(&bare));
    let why = "install: target/staticlib/libsps.a is missing; ./build makes it\n";
    assert_eq!((ended.status.code(), text(&ended.stderr)), (Some(2), why.to_owned()));
    assert_eq!(files_below(&bare), [bare.join("install")]);
}
