//! The three files as one set: 7 to 19, 24 and 25 in their order, and the counts.

use crate::form::Form;
use crate::tables::Tables;
use crate::{header, refusal, tape};
use crate::{Counts, Fault, File, Files, Medium, Place, Point, PointLine, Refusal, Relation};
use std::collections::{HashMap, HashSet};

/// Where a receiver or a shot stands in its file, and whether it is killed.
#[derive(Clone, Copy)]
pub struct Station {
    pub line: u32,
    pub killed: bool,
}

/// The receivers of R or the shots of S.
pub type Stations = HashMap<Place, Station>;

/// An accepted set.
pub struct Set {
    pub receivers: Stations,
    /// The relation lines in the order of X, with its header.
    pub x: Form<Relation>,
    pub tables: Tables,
    pub counts: Counts,
}

/// Reads and checks a set.
pub fn read(medium: Medium, [r, s, x]: Files) -> Result<Set, Refusal> {
    let r = Form::points(medium, File::R, r)?;
    let s = Form::points(medium, File::S, s)?;
    let x = Form::relations(medium, x)?;
    header::check(&r.headers, &s.headers, &x.headers)?;
    let tables = Tables::read(&r.headers)?;
    tables.name_all(&r, &s, &x)?;
    let receivers = receivers(medium, &r)?;
    let shots = shots(&s)?;
    let mut walk = Walk::new(&receivers, &shots);
    for (line, relation) in x.numbered() {
        walk.step(relation).map_err(|fault| fault.at(File::X, line))?;
    }
    all_named(&s, &x)?;
    let counts = Counts {
        receivers: receivers.len() as u64,
        shots: shots.len() as u64,
        relations: x.data.len() as u64,
        traces: x.data.iter().map(Relation::traces).sum(),
        dead_traces: walk.dead_traces,
    };
    Ok(Set { receivers, x, tables, counts })
}

/// The lines that are points, killed or not, with where they stand.
fn points(form: &Form<PointLine>) -> impl Iterator<Item = (Station, &Point)> {
    form.numbered().filter_map(|(line, read)| {
        Some((Station { line, killed: read.live().is_none() }, read.point()?))
    })
}

/// The lines that are points and not killed, with their line numbers.
pub fn live(form: &Form<PointLine>) -> impl Iterator<Item = (u32, &Point)> {
    form.numbered().filter_map(|(line, read)| Some((line, read.live()?)))
}

/// A place as 10 compares it: on tape by the tape's own bytes of the name.
fn in_order(medium: Medium, place: Place) -> Place {
    match medium {
        Medium::Disc => place,
        Medium::Tape => Place { name: tape::own_bytes(place.name), ..place },
    }
}

/// The receivers; 10 holds them in ascending order.
fn receivers(medium: Medium, r: &Form<PointLine>) -> Result<Stations, Refusal> {
    let mut stations = Stations::new();
    let mut before: Option<Place> = None;
    for (station, point) in points(r) {
        let place = in_order(medium, point.place);
        if before.is_some_and(|before| place <= before) {
            return Err(refusal(10, File::R, station.line, 2));
        }
        before = Some(place);
        stations.insert(point.place, station);
    }
    Ok(stations)
}

/// The shots; line by line 11, then 12.
fn shots(s: &Form<PointLine>) -> Result<Stations, Refusal> {
    let mut stations = Stations::new();
    let mut before = (0, 0);
    for (station, point) in points(s) {
        let moment = (point.day, point.time);
        if moment < before {
            return Err(refusal(11, File::S, station.line, 72));
        }
        before = moment;
        if stations.insert(point.place, station).is_some() {
            return Err(refusal(12, File::S, station.line, 2));
        }
    }
    Ok(stations)
}

/// 15: each shot that is not killed is the source of a relation line.
fn all_named(s: &Form<PointLine>, x: &Form<Relation>) -> Result<(), Refusal> {
    let named: HashSet<Place> = x.data.iter().map(|relation| relation.source).collect();
    match live(s).find(|(_, point)| !named.contains(&point.place)) {
        Some((line, _)) => Err(refusal(15, File::S, line, 1)),
        None => Ok(()),
    }
}

/// The walk down X, with what it has seen above the next line.
struct Walk<'a> {
    in_r: &'a Stations,
    in_s: &'a Stations,
    before: Option<&'a Relation>,
    /// Every tape and record above.
    records: HashSet<([u8; 6], u16)>,
    /// The receivers covered above in the record of the line just before. 16 comes
    /// first, so no other line above is of that record.
    covered: HashSet<Place>,
    dead_traces: u64,
}

impl<'a> Walk<'a> {
    fn new(in_r: &'a Stations, in_s: &'a Stations) -> Self {
        Walk {
            in_r,
            in_s,
            before: None,
            records: HashSet::new(),
            covered: HashSet::new(),
            dead_traces: 0,
        }
    }

    fn step(&mut self, relation: &'a Relation) -> Result<(), Fault> {
        self.source(relation)?;
        self.record(relation)?;
        self.receivers(relation)?;
        self.records.insert(relation.record());
        self.before = Some(relation);
        Ok(())
    }

    /// 13, 14: the shot is there and not killed, and not before that of the line just before.
    fn source(&self, relation: &Relation) -> Result<(), Fault> {
        let Some(shot) = self.in_s.get(&relation.source).filter(|shot| !shot.killed) else {
            return Err(Fault { number: 13, column: 14 });
        };
        let earlier = self.before.and_then(|b| self.in_s.get(&b.source));
        if earlier.is_some_and(|earlier| shot.line < earlier.line) {
            return Err(Fault { number: 14, column: 14 });
        }
        Ok(())
    }

    /// 16, 17: the lines of a record stand together, agree, and their channels ascend.
    fn record(&mut self, relation: &Relation) -> Result<(), Fault> {
        match self.before.filter(|b| b.record() == relation.record()) {
            None => {
                self.covered.clear();
                if self.records.contains(&relation.record()) {
                    return Err(Fault { number: 16, column: 2 });
                }
            }
            Some(before) => {
                let same = before.source == relation.source
                    && before.record_increment == relation.record_increment
                    && before.instrument == relation.instrument;
                if !same {
                    return Err(Fault { number: 16, column: 2 });
                }
                if relation.from_channel <= before.to_channel {
                    return Err(Fault { number: 17, column: 39 });
                }
            }
        }
        Ok(())
    }

    /// 18 of all covered receivers, then 19: each is there, and covered once in a record. Each
    /// component of a killed one is a dead trace.
    fn receivers(&mut self, relation: &Relation) -> Result<(), Fault> {
        for receiver in relation.covered() {
            match self.in_r.get(&receiver) {
                None => return Err(Fault { number: 18, column: 64 }),
                Some(Station { killed: true, .. }) => {
                    self.dead_traces += u64::from(relation.channel_increment);
                }
                Some(_) => {}
            }
        }
        if !relation.covered().all(|r| self.covered.insert(r)) {
            return Err(Fault { number: 19, column: 64 });
        }
        Ok(())
    }
}
