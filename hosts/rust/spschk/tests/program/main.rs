//! The program `spschk` in folders, against the naive reader.

mod calls;
#[allow(dead_code)]
#[path = "../../../made.rs"]
mod made;
mod output;
mod run;

use run::Folder;
use small_sets::place::last_header;
use small_sets::File::{R, S, X};
use small_sets::{folders, marker, receiver, relation, set_a, File, Set};
use std::io::Write;
use std::os::unix::fs::PermissionsExt;
use std::process::Command;
use std::{fs, io};

/// The size of the program's buffers, and the most whole lines that they hold.
const BUFFER: usize = 65_536;
const LINES: usize = 799;

fn no_file(file: File) -> String {
    format!("NO FILE {}\n", file.letter())
}

fn too_long(file: File) -> String {
    format!("TOO LONG {}\n", file.letter())
}

/// Set A with a file of so many bytes.
fn sized(file: File, bytes: usize) -> Set {
    let set = set_a();
    let missing = bytes - set.file(file).len();
    set.over(file, missing)
}

#[test]
fn set_a_is_accepted() {
    assert_eq!(Folder::of("set_a", &set_a()).says(), "ACCEPTED 3 1 1 3 0\n");
}

/// The folders of `cases`: the paper's rows, each refusal number, two faults. 10,000
/// lines are too long for the program.
#[test]
fn small_sets_have_the_readers_line() {
    for small in folders() {
        let name = format!("small_{}", small.name);
        let long = File::ALL.into_iter().find(|&file| small.set.file(file).len() > BUFFER);
        let line = long.map_or_else(|| spschk::line(&small.set), too_long);
        assert_eq!(Folder::of(&name, &small.set).says(), line, "{name}");
    }
}

/// One, two or all three files missing: the first in the order R, S, X counts.
#[test]
fn the_first_missing_file_is_named() {
    for missing in 1..8 {
        let gone: Vec<File> =
            File::ALL.into_iter().filter(|&file| missing >> (file as u8 - 1) & 1 == 1).collect();
        let folder = Folder::of(&format!("missing_{missing}"), &set_a());
        let folder = gone.iter().fold(folder, |folder, &file| folder.without(file));
        assert_eq!(folder.says(), no_file(gone[0]));
    }
}

/// 65,536 bytes are read whole, of which 1 is refused; one byte more is too long.
#[test]
fn a_buffer_is_filled_to_its_end() {
    for file in File::ALL {
        let name = |bytes: usize| format!("bytes_{}_{bytes}", file.letter());
        let full = sized(file, BUFFER);
        assert_eq!(spschk::line(&full), format!("REFUSED 1 {} 800 0\n", file.letter()));
        assert_eq!(Folder::of(&name(BUFFER), &full).says(), spschk::line(&full));
        let over = sized(file, BUFFER + 1);
        assert_eq!(Folder::of(&name(BUFFER + 1), &over).says(), too_long(file));
        let far = sized(file, 3 * BUFFER);
        assert_eq!(Folder::of(&name(3 * BUFFER), &far).says(), too_long(file));
    }
}

/// A file that ends anywhere is read to there: empty, within a line, and about where the
/// program's reads of 4,096 bytes end.
#[test]
fn a_file_is_read_to_its_end() {
    for file in File::ALL {
        let whole = set_a().file(file).len();
        let cut = [0, 1, 81, 82, 83, whole - 82, whole - 1].map(|size| set_a().cut(file, size));
        let long = [4_095, 4_096, 4_097, 8_192].map(|size| sized(file, size));
        for set in cut.into_iter().chain(long) {
            let name = format!("ends_{}_{}", file.letter(), set.file(file).len());
            assert_eq!(Folder::of(&name, &set).says(), spschk::line(&set), "{name}");
        }
    }
}

/// The largest files that the buffers take are read to their last line.
#[test]
fn files_of_799_lines_are_accepted() {
    let more = |file| LINES - set_a().lines(file);
    let long = set_a()
        .add_all(R, (104..).map(receiver).take(more(R)))
        .add_all(S, vec![marker(S); more(S)])
        .add_all(X, (12..).map(|number| relation().record(number)).take(more(X)));
    assert_eq!(File::ALL.map(|file| long.file(file).len()), [65_518; 3]);
    let own = LINES - last_header();
    assert_eq!(spschk::line(&long), format!("ACCEPTED {own} 1 {own} {} 0\n", 3 * own));
    assert_eq!(Folder::of("long", &long).says(), spschk::line(&long));
    for file in File::ALL {
        let odd = long.clone().put(file, LINES, 1, "Q");
        let name = format!("long_{}", file.letter());
        assert_eq!(Folder::of(&name, &odd).says(), spschk::line(&odd));
    }
}

/// Missing and too long by the order of the files alone, and both before a refusal.
#[test]
fn files_count_in_the_order_r_s_x() {
    for (first, second) in [(R, S), (R, X), (S, X)] {
        let name = |what: &str| format!("{what}_{}_{}", first.letter(), second.letter());
        let missing = Folder::of(&name("missing_long"), &sized(second, BUFFER + 1)).without(first);
        assert_eq!(missing.says(), no_file(first));
        let long = Folder::of(&name("long_missing"), &sized(first, BUFFER + 1)).without(second);
        assert_eq!(long.says(), too_long(first));
    }
    let odd = set_a().over(R, 1);
    assert_eq!(Folder::of("odd_missing", &odd).without(X).says(), no_file(X));
    let odd = sized(X, BUFFER + 1).over(R, 1);
    assert_eq!(Folder::of("odd_long", &odd).says(), too_long(X));
}

/// What opens and cannot be read is no file, and no shorter file: a folder, and a
/// file whose first read fails for every user.
#[test]
fn what_cannot_be_read_is_no_file() {
    for file in File::ALL {
        let letter = file.letter();
        let folder = Folder::of(&format!("folder_{letter}"), &set_a()).without(file);
        fs::create_dir(folder.path(file)).expect("a folder");
        assert_eq!(folder.says(), no_file(file));
        let dangling = Folder::of(&format!("dangling_{letter}"), &set_a()).link(file, "nothing");
        assert_eq!(dangling.says(), no_file(file));
        let failing = Folder::of(&format!("failing_{letter}"), &set_a());
        assert_eq!(failing.link(file, "/proc/self/mem").says(), no_file(file));
    }
}

/// A file of mode 0; a user who may read it all the same is told of.
#[test]
fn what_may_not_be_read_is_no_file() {
    let folder = Folder::of("mode_0", &set_a());
    let path = folder.path(S);
    fs::set_permissions(&path, fs::Permissions::from_mode(0o000)).expect("a mode");
    if fs::File::open(&path).is_ok() {
        let note = "skipped: this user may read a file of mode 0\n";
        io::stderr().write_all(note.as_bytes()).expect("standard error");
        return;
    }
    assert_eq!(folder.says(), no_file(S));
}

/// Links are followed, to a file without end and to an empty one.
#[test]
fn devices_are_read_as_files() {
    let endless = Folder::of("endless", &set_a()).link(X, "/dev/zero");
    assert_eq!(endless.says(), too_long(X));
    let empty = Folder::of("nothing", &set_a()).link(R, "/dev/null");
    assert_eq!(empty.says(), spschk::line(&set_a().cut(R, 0)));
}

/// A FIFO is no file, and the program does not wait for somebody who writes to it.
#[test]
fn a_fifo_is_no_file() {
    for file in File::ALL {
        let folder = Folder::of(&format!("fifo_{}", file.letter()), &set_a()).without(file);
        let made = Command::new("mkfifo").arg(folder.path(file)).status().expect("mkfifo");
        assert!(made.success(), "mkfifo ended with {made}");
        assert_eq!(Folder::line(&mut folder.within_limits()), no_file(file));
    }
}
