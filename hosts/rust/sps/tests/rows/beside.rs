//! Rows beside what is asked of single traces: the lookup of the record of their relation line, the
//! way back, and the spread table.

use crate::hold::told;
use crate::typed;
use crate::wrapped::wrapped;
use many_sets::media::plain;
use many_sets::run::{random, turns};
use many_sets::sound::sound;
use small_sets::Set;
use sps::{Row, Trace};
use std::collections::BTreeMap;

/// Holds each row to the lookup and the way back, and the rows of each record to its spread table:
/// every covered channel stands in one row. Returns how many rows there are.
fn hold(set: &Set) -> usize {
    let asked = wrapped(set);
    let rows: Vec<Row> = asked.rows().collect::<Result<_, _>>().expect("an accepted set");
    assert_eq!(rows, typed::rows(set, &told(set)));
    let mut records: BTreeMap<_, BTreeMap<u32, Row>> = BTreeMap::new();
    for row in &rows {
        let record = asked.record(&row.tape, row.record.into());
        let (r_line, component) = (row.r_line.into(), row.component.into());
        let trace = Trace { r_line, component, killed: row.killed };
        assert_eq!(record.channel(row.channel.into()), Ok(Some(trace)));
        assert_eq!(record.receiver(r_line, component), Ok(Some(row.channel.into())));
        let record = records.entry((row.tape, row.record)).or_default();
        assert_eq!(record.insert(row.channel, *row), None, "a channel twice");
    }
    for ((tape, record), channels) in records {
        let (mut lines, mut components) = ([0; 9_999], [0; 9_999]);
        let highest = asked.record(&tape, record.into()).spread(&mut lines, &mut components);
        let (last, _) = channels.last_key_value().expect("a row");
        assert_eq!(highest, Ok((*last).into()));
        for (channel, place) in (1..=*last).zip(lines.into_iter().zip(components)) {
            let row = channels.get(&channel);
            assert_eq!(row.map_or((0, 0), |row| (row.r_line as u16, row.component)), place);
        }
    }
    rows.len()
}

/// Sets of few traces, since each of them is asked for.
fn run(salt: u64, sets: u64, make: impl Fn(&mut small_sets::Random) -> Set) {
    let (mut random, mut rows) = (random(salt), 0);
    for _ in 0..turns(sets) {
        let set = make(&mut random);
        if wrapped(&set).cross().is_ok_and(|accepted| (1..=120).contains(&accepted.traces)) {
            rows += hold(&set);
        }
    }
    assert!(rows > 2_000, "{rows} rows");
}

#[test]
fn on_disc() {
    run(155, 300, |random| sound(random).set);
}

#[test]
fn on_tape() {
    run(156, 300, |random| plain(random).on_tape().expect("characters of a tape"));
}
