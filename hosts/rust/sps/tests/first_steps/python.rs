//! The package for Python: its own tests, the examples of its docs among them, and its example.

use crate::tools::{folder, output, printed, root, shared, text};
use std::path::Path;
use std::process::Command;

/// Python with the package, on a shared object of the archive.
fn python(library: &Path) -> Command {
    let mut python = Command::new("python3");
    python.env("PYTHONPATH", root().join("hosts/python")).env("SPS_LIBRARY", library);
    python.env("PYTHONDONTWRITEBYTECODE", "1").current_dir(root());
    python
}

/// They leave no warning, as of a file that is not closed.
#[test]
fn tests_of_the_package() {
    let library = shared(&folder("python_tests"));
    let mut tests = python(&library);
    tests.args(["-W", "error", "-m", "unittest", "discover", "--quiet"]);
    tests.args(["-t", "hosts/python", "-s", "hosts/python/tests"]);
    let ended = output(&mut tests);
    let said = text(&ended.stderr);
    assert!(ended.status.success(), "{said}");
    let ran = said.lines().find_map(|line| line.strip_prefix("Ran ")?.split(' ').next());
    let ran: usize = ran.expect("a count").parse().expect("a number");
    // Rows are laid before numpy where the machine has it.
    let ends = ["\nOK\n", "\nOK (skipped=1)\n"];
    assert!(ran > 40 && ends.iter().any(|end| said.ends_with(end)), "{said}");
}

/// A table of the traces of a set, on disc and on tape.
#[test]
fn table_of_traces() {
    let library = shared(&folder("python_example"));
    let table = |words: &[&str]| {
        let mut example = python(&library);
        example.arg("hosts/python/examples/traces.py").args(words);
        example
    };
    let head = "tape,record,channel,line_name,point,index,component,dead\n";
    let rows = |points: &[(u32, &str)], components: u32| -> String {
        let of = |at: usize, (point, dead): (u32, &str)| -> Vec<String> {
            let first = at as u32 * components;
            let row = |n| format!("100,11,{},L1,{point},1,{n},{dead}\n", first + n);
            (1..=components).map(row).collect()
        };
        points.iter().enumerate().flat_map(|(at, point)| of(at, *point)).collect()
    };
    let live = [(101, "False"), (102, "False"), (103, "False")];
    let set_a = format!("{head}{}", rows(&live, 1));
    assert_eq!(printed(&mut table(&["examples/set_a"])), set_a);
    assert_eq!(printed(&mut table(&["examples/set_a_tape", "--tape"])), set_a);
    let killed = [(101, "False"), (102, "True"), (103, "False")];
    assert_eq!(printed(&mut table(&["examples/killed"])), format!("{head}{}", rows(&killed, 3)));
    assert_eq!(printed(&mut table(&["examples/headers_only"])), head);

    for (words, status, why) in [
        (&["examples/odd_channel"][..], 1, "REFUSED 6 X 25 72: "),
        (&["examples"], 2, "No such file"),
        (&[], 2, "usage: "),
    ] {
        let ended = output(&mut table(words));
        assert_eq!((ended.status.code(), text(&ended.stdout)), (Some(status), String::new()));
        assert!(text(&ended.stderr).contains(why), "{}", text(&ended.stderr));
    }
}
