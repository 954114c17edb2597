//! README as a new user takes it: each block of commands runs as it stands in a fresh clone, and
//! prints what stands below it.
//!
//! A block marked `sh` is commands. A block set in by four columns is what the commands above
//! it print: on standard output, on standard error, or on both, one after the other. Blocks marked
//! `c` compile, and those marked `rust` run, with what stands around them here.

use crate::clone::{built, left};
use crate::tools::{folder, output, printed, root, text};
use small_sets::place::header_line;
use std::fs;
use std::process::Command;

/// The one command that is not run: it runs these tests.
const GATE: &str = ".ci/run\n";

/// Commands, and what README shows of what they print.
struct Block {
    line: usize,
    commands: String,
    shown: Vec<String>,
}

/// The blocks of a text in Markdown, in order.
fn blocks(text: &str) -> Vec<Block> {
    let mut blocks: Vec<Block> = Vec::new();
    let mut fence = None;
    let mut shows = false;
    for (at, line) in text.lines().enumerate() {
        let set_in = line.strip_prefix("    ").filter(|_| fence.is_none());
        match (line.strip_prefix("```"), fence) {
            (Some(kind), None) => {
                fence = Some(kind);
                if kind == "sh" {
                    let (commands, shown) = (String::new(), Vec::new());
                    blocks.push(Block { line: at + 1, commands, shown });
                }
            }
            (Some(_), Some(_)) => fence = None,
            (None, Some("sh")) => {
                blocks.last_mut().expect("a block").commands += &format!("{line}\n")
            }
            _ => {}
        }
        if let Some(printed) = set_in {
            let block = blocks.last_mut().unwrap_or_else(|| panic!("line {}: no commands", at + 1));
            if !shows {
                block.shown.push(String::new());
            }
            *block.shown.last_mut().expect("what is shown") += &format!("{printed}\n");
        }
        shows = set_in.is_some();
    }
    assert!(fence.is_none(), "a block is not closed");
    blocks
}

/// Runs a block as a shell of a person does, in the clone. A refusal is an answer, with status 1.
fn run(block: &Block) {
    let Block { line, commands, shown } = block;
    let ended = output(Command::new("bash").args(["-e", "-c", commands]).current_dir(built()));
    let (out, error) = (text(&ended.stdout), text(&ended.stderr));
    let refused = ended.status.code() == Some(1) && out.starts_with("REFUSED ");
    assert!(ended.status.success() || refused, "line {line}: {}\n{out}{error}", ended.status);
    for shown in shown {
        let printed =
            [&out, &error, &format!("{out}{error}")].into_iter().any(|text| text == shown);
        assert!(printed, "line {line} shows\n{shown}and the commands print\n{out}{error}");
    }
}

#[test]
fn commands() {
    let readme = fs::read_to_string(root().join("README.md")).expect("README");
    let blocks = blocks(&readme);
    let (gate, blocks): (Vec<_>, Vec<_>) =
        blocks.into_iter().partition(|block| block.commands.ends_with(GATE));
    assert_eq!(gate.len(), 1);
    assert!(blocks.iter().any(|block| !block.shown.is_empty()));
    blocks.iter().for_each(run);
    assert_eq!(left(), "", "what the commands make is ignored");
    fragment_of_rust(&readme);
}

/// The blocks of one language, one after the other.
fn fragments(readme: &str, language: &str) -> String {
    let mark = format!("```{language}\n");
    let blocks = readme.split(&mark).skip(1);
    let fragments: Vec<&str> = blocks.filter_map(|rest| Some(rest.split_once("```")?.0)).collect();
    assert!(!fragments.is_empty(), "no {language}");
    fragments.concat()
}

/// What stands around the fragments of C.
const AROUND_C: [&str; 2] = [
    "#include \"sps.h\"\n#include <stdio.h>\n\
     int main(void)\n{\nstatic uint8_t r[82], s[82], x[82];\n\
     size_t r_len = sizeof r, s_len = sizeof s, x_len = sizeof x;\n",
    "return sps_is_refused(answer);\n}\n",
];

#[test]
fn fragments_of_c() {
    let readme = fs::read_to_string(root().join("README.md")).expect("README");
    let [before, after] = AROUND_C;
    let source = folder("fragments").join("readme.c");
    let inside = fragments(&readme, "c").replace("#include \"sps.h\"\n", "");
    fs::write(&source, format!("{before}{inside}{after}")).expect("a file");
    let mut compile = Command::new("cc");
    compile.args(["-std=c99", "-Wall", "-Wextra", "-Werror", "-pedantic", "-fsyntax-only", "-I"]);
    printed(compile.arg(root().join("include")).arg(source));
}

/// What stands around the fragment of Rust: set A, and room for what is written.
const AROUND_RUST: [&str; 2] = [
    "fn main() -> Result<(), Box<dyn std::error::Error>> {\n\
     let read = |letter| std::fs::read(format!(\"examples/set_a/set.{letter}01\"));\n\
     let (r, s, x) = (read('r')?, read('s')?, read('x')?);\n\
     let (mut lines, mut components, mut merged) = ([0; 9_999], [0; 9_999], x.clone());\n",
    "println!(\"{highest} {line:?}\");\nOk(())\n}\n",
];

/// Runs the fragment of Rust in the crate that README's commands have made.
fn fragment_of_rust(readme: &str) {
    let [before, after] = AROUND_RUST;
    let inside = fragments(readme, "rust");
    let source = built().join("target/survey/src/main.rs");
    fs::write(source, format!("{before}{inside}{after}")).expect("a file");
    let mut run = Command::new("cargo");
    run.args(["run", "--quiet", "--offline", "--manifest-path", "target/survey/Cargo.toml"]);
    let told = format!("ACCEPTED 3 1 1 3 0\n3 Some({})\n", header_line(600));
    assert_eq!(printed(run.current_dir(built())), told);
}

#[test]
fn blocks_of_a_text() {
    let text =
        "Do\n\n```sh\none\ntwo\n```\n\nThis prints\n\n    three\n     four\n\nand\n\n    five\n\n\
                ```c\n    six\n```\n\n```sh\nseven\n```\n";
    let blocks = blocks(text);
    let found: Vec<(usize, &str, Vec<&str>)> = blocks
        .iter()
        .map(|block| (block.line, &*block.commands, block.shown.iter().map(|s| &**s).collect()))
        .collect();
    let one = (3, "one\ntwo\n", vec!["three\n four\n", "five\n"]);
    assert_eq!(found, [one, (21, "seven\n", vec![])]);
}
