//! Two crews' R, S and X, read and written line by line under one header, through the library.

use many_sets::run::{random, turns};
use many_sets::sound::{crews, Crews, Sound};
use small_sets::{File, Line, Set, STAYS};
use sps::{read_point, read_relation, Accepted, Medium::Disc, Point, Refusal, Relation};

/// The lines of R, S and X below a header.
#[derive(Clone, Default)]
struct Lines {
    r: Vec<Point>,
    s: Vec<Point>,
    x: Vec<Relation>,
}

/// The set is accepted with these counts.
fn hold(set: &Set, [receivers, shots, relations, traces, dead_traces]: [u64; 5]) {
    let accepted = Accepted { receivers, shots, relations, traces, dead_traces };
    assert_eq!(crate::wrapped::wrapped(set).cross(), Ok(accepted));
}

/// The lines of a crew's set.
fn read(set: &Set, header: &[Line]) -> Result<Lines, Refusal> {
    let own = |file| header.len() as u64 + 1..=set.lines(file) as u64;
    let r = own(File::R).map(|line| read_point(Disc, sps::File::R, &set.r, line));
    let s = own(File::S).map(|line| read_point(Disc, sps::File::S, &set.s, line));
    let x = own(File::X).map(|line| read_relation(Disc, &set.x, line));
    Ok(Lines {
        r: r.collect::<Result<_, _>>()?,
        s: s.collect::<Result<_, _>>()?,
        x: x.collect::<Result<_, _>>()?,
    })
}

/// The lines of both, in the order of the rules: receivers by name, point and index, shots by day
/// and time, and the relations of each shot where it stands.
fn merged(one: &Lines, other: &Lines) -> Lines {
    let place = |point: &Point| (point.name, point.number, point.index);
    let mut r = [&one.r[..], &other.r].concat();
    let mut s = [&one.s[..], &other.s].concat();
    let mut x = [&one.x[..], &other.x].concat();
    r.sort_by_key(place);
    s.sort_by_key(|shot| (shot.day, shot.time));
    x.sort_by_cached_key(|relation| {
        let source = (relation.source_name, relation.source_number, relation.source_index);
        s.iter().position(|shot| place(shot) == source)
    });
    Lines { r, s, x }
}

/// Lines below a header, each at the start of what is left of the file.
fn written<T>(
    mut file: Vec<u8>,
    lines: &[T],
    write: impl Fn(&T, &mut [u8]) -> Result<(), Refusal>,
) -> Result<Vec<u8>, Refusal> {
    let mut end = file.len();
    file.resize(end + 82 * lines.len(), STAYS);
    for line in lines {
        write(line, &mut file[end..])?;
        end += 82;
    }
    Ok(file)
}

fn set_of(header: &[Line], lines: &Lines) -> Result<Set, Refusal> {
    let headers = Set::default().each(|set, file| set.add_all(file, header.iter().copied()));
    Ok(Set {
        r: written(headers.r, &lines.r, |point, line| point.write(sps::File::R, line))?,
        s: written(headers.s, &lines.s, |point, line| point.write(sps::File::S, line))?,
        x: written(headers.x, &lines.x, Relation::write)?,
        medium: headers.medium,
    })
}

/// The first crew writes no points, the second counts down, and each shoots before the other is
/// done: neither's shots come first. The set of both has the counts of both.
#[test]
fn two_crews() {
    let mut random = random(144);
    let mut totals = [0; 5];
    for _ in 0..turns(200) {
        let Crews { header, sets } = crews(&mut random);
        for Sound { set, counts } in &sets {
            hold(set, *counts);
        }
        let [one, other] = sets.each_ref().map(|crew| read(&crew.set, &header).expect("its lines"));
        let both = merged(&one, &other);
        assert_ne!(both.s, [&one.s[..], &other.s].concat());
        assert_ne!(both.s, [&other.s[..], &one.s].concat());
        let down = |relation: &Relation| relation.from_receiver > relation.to_receiver;
        assert!(!one.x.iter().any(down) && other.x.iter().any(down));
        let counts = std::array::from_fn(|at| sets[0].counts[at] + sets[1].counts[at]);
        hold(&set_of(&header, &both).expect("lines"), counts);
        totals = std::array::from_fn(|at| totals[at] + counts[at]);
    }
    assert!(totals.iter().all(|total| *total > turns(200)), "{totals:?}");
}
