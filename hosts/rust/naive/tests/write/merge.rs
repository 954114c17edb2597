//! Two crews' R, S and X, written line by line under one header.

use crate::written::{values_of_point, values_of_relation};
use many_sets::run::{random, turns};
use many_sets::sound::{crews, Crews, Sound};
use many_sets::spellings::spelt;
use many_sets::values::{merged, SetValues};
use naive::{check, write_point, write_relation, Counts, File, Medium, Refusal, RelationValues};
use small_sets::{Line, Set, STAYS};

/// The set is accepted with these counts.
fn hold(set: &Set, [receivers, shots, relations, traces, dead_traces]: [u64; 5]) {
    let counts = Counts { receivers, shots, relations, traces, dead_traces };
    assert_eq!(check(Medium::Disc, set.files()), Ok(counts));
}

/// The values of the lines below the header.
fn values_of(set: &Set, header: &[Line]) -> SetValues {
    let own = |file| (header.len() + 1..=set.lines(file)).map(move |line| set.line(file, line));
    let point = |file| move |line| values_of_point(file, &line).expect("a point");
    SetValues {
        r: own(small_sets::File::R).map(point(File::R)).collect(),
        s: own(small_sets::File::S).map(point(File::S)).collect(),
        x: own(small_sets::File::X)
            .map(|line| values_of_relation(&line).expect("a relation"))
            .collect(),
    }
}

/// The lines of these values below a header.
fn written<V>(
    mut file: Vec<u8>,
    lines: &[V],
    write: fn(&V, &mut [u8]) -> Result<(), Refusal>,
) -> Vec<u8> {
    let header = file.len();
    file.resize(header + 82 * lines.len(), STAYS);
    for (line, start) in lines.iter().zip((header..).step_by(82)) {
        write(line, &mut file[start..]).expect("a line");
    }
    file
}

fn set_of(header: &[Line], values: &SetValues) -> Set {
    let headers = Set::default().each(|set, file| set.add_all(file, header.iter().copied()));
    Set {
        r: written(headers.r, &values.r, write_point),
        s: written(headers.s, &values.s, write_point),
        x: written(headers.x, &values.x, write_relation),
        ..headers
    }
}

fn descends(relation: &RelationValues) -> bool {
    relation.from_receiver > relation.to_receiver
}

/// The first crew writes no points, the second counts down, and each shoots before the other is
/// done. The set of both has the counts of both.
#[test]
fn two_crews() {
    let mut random = random(110);
    let mut totals = [0; 5];
    for _ in 0..turns(300) {
        let Crews { header, sets } = crews(&mut random);
        for Sound { set, counts } in &sets {
            hold(set, *counts);
        }
        assert_eq!(spelt(&sets[0].set)[0], 0);
        let crews = sets.each_ref().map(|crew| values_of(&crew.set, &header));
        assert_eq!(crews.each_ref().map(|crew| crew.x.iter().any(descends)), [false, true]);
        let both = merged(&crews);
        let [one, other] = crews.each_ref().map(|crew| &crew.s[..]);
        assert!(both.s != [one, other].concat() && both.s != [other, one].concat());
        let counts = std::array::from_fn(|at| sets[0].counts[at] + sets[1].counts[at]);
        hold(&set_of(&header, &both), counts);
        totals = std::array::from_fn(|at| totals[at] + counts[at]);
    }
    assert!(totals.iter().all(|&total| total > turns(300)), "{totals:?}");
}
