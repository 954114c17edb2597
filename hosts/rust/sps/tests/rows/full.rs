//! Sets of 9,999 lines a file, and hostile ones.

use crate::hold::{files, firsts, hold, told};
use crate::wrapped::wrapped;
use crate::{archive, typed};
use many_sets::large::{survey, two_million_traces, Large, FULL, HOSTILE, WIDEST};
use small_sets::Set;
use sps::{Row, Trace};

/// Holds a set of many traces in one slice, in chunks that no line ends with, near its ends, and
/// through the wrapper.
fn hold_full(set: &Set, traces: u64) {
    let told = told(set);
    assert_eq!(told.number, traces);
    hold(set, &told, 0, 16 * told.rows.len() + 24);
    for first in firsts(traces) {
        hold(set, &told, first, 16 * 1_001 + 3);
    }
    let chunk = told.rows.len() / 7 + 1;
    for first in (0..told.rows.len()).step_by(chunk) {
        hold(set, &told, first as u64, 16 * chunk);
    }
    typed::hold(set, &told, 4 << 20);
}

#[test]
fn legal_sets() {
    let set = survey(1_995);
    hold_full(&set, 1_995_000);
    let typed: Vec<Row> = wrapped(&set).rows().collect::<Result<_, _>>().expect("rows");
    assert_eq!(typed.len(), 1_995_000);
    let tape = survey(1_994).on_tape().expect("characters of a tape");
    hold_full(&tape, 1_994_000);
}

#[test]
fn a_record_for_each_line() {
    hold_full(&two_million_traces(), 1_995_000);
}

/// One of the large sets by its name, of so many lines a file.
fn large(sets: &[Large], name: &str, lines: usize) -> Set {
    let (_, make) = sets.iter().find(|(of, _)| *of == name).expect("a set of that name");
    make(lines)
}

#[test]
fn hostile_sets() {
    for name in [
        "records of 129 lines, laid out backwards",
        "records of 129 lines, half of the receivers killed",
        "nine indices in turn, half of them killed",
        "all shuffled, half of the receivers killed",
    ] {
        let set = large(&HOSTILE, name, 3_000);
        let accepted = wrapped(&set).cross().expect("an accepted set");
        hold_full(&set, accepted.traces);
    }
}

/// The last traces of nearly a hundred million, beside the lookup of each.
#[test]
fn widest_set() {
    let set = large(&WIDEST, "every receiver in every record, half of them killed", FULL);
    let (traces, asked) = (archive::cross(files(&set)), wrapped(&set));
    assert!(traces > 99_000_000 && traces >> 40 == 0, "{traces}");
    for first in [0, traces / 2, traces - 3] {
        let mut rows = [0; 3 * 16];
        assert_eq!(asked.row_bytes(first, &mut rows), Ok(traces));
        for row in rows.chunks_exact(16) {
            let number = |at: usize| u32::from_le_bytes([0, 1, 2, 3].map(|byte| row[at + byte]));
            let line = sps::read_relation(sps::Medium::Disc, &set.x, number(0).into());
            let line = line.expect("a relation line");
            let record = asked.record(&line.tape, line.record);
            let (r_line, component) = (number(8).into(), row[12].into());
            let trace = Trace { r_line, component, killed: row[13] == 1 };
            assert_eq!(record.channel(number(4).into()), Ok(Some(trace)));
        }
    }
}
