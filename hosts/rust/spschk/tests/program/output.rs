//! A standard output that takes nothing, and standard descriptors that are closed.

use crate::run::Folder;
use small_sets::set_a;
use std::io;
use std::process::Command;

/// The status is 0, as for every line, and standard error says what is missing.
fn is_told(mut command: Command) {
    let output = command.output().expect("a run");
    assert!(output.status.success(), "{command:?}: {}", output.status);
    assert_eq!(output.stdout, b"", "{command:?}");
    assert_eq!(output.stderr, b"spschk: the line could not be written\n", "{command:?}");
}

/// A pipe that nobody reads.
fn unread() -> io::PipeWriter {
    let (_, writer) = io::pipe().expect("a pipe");
    writer
}

#[test]
fn a_line_that_is_not_written_is_told() {
    let folder = Folder::of("unwritten", &set_a());
    is_told(folder.shell(r#"exec "$0" >&-"#));
    is_told(folder.shell(r#"exec "$0" <&- >&-"#));
    is_told(folder.shell(r#"exec "$0" >/dev/full"#));
}

/// A pipe that nobody reads is told like any output that takes nothing: the signal is
/// ignored from the program's start on, whatever the caller has set.
#[test]
fn a_pipe_that_nobody_reads_is_told() {
    let folder = Folder::of("unread", &set_a());
    for script in [r#"exec "$0""#, r#"trap "" PIPE; exec "$0""#] {
        let mut command = folder.shell(script);
        command.stdout(unread());
        is_told(command);
    }
}

/// With nowhere to say it, the program still ends well.
#[test]
fn all_descriptors_may_be_closed() {
    let folder = Folder::of("all_closed", &set_a());
    let output = folder.shell(r#"exec "$0" <&- >&- 2>&-"#).output().expect("a run");
    assert!(output.status.success(), "{}", output.status);
}

/// The number 0 is a descriptor like any other: a closed standard input gives it to R.
#[test]
fn the_first_descriptor_is_read() {
    let folder = Folder::of("no_input", &set_a());
    assert_eq!(Folder::line(&mut folder.shell(r#"exec "$0" <&-"#)), "ACCEPTED 3 1 1 3 0\n");
}
