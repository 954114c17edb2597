//! What a crew lays out and shoots, before it is written.

use super::points::{in_time, killed, receivers, shots};
use super::relations::relations;
use super::shape::{Place, Relation};
use super::{tables, Size};
use small_sets::{File, Line, Random};
use std::collections::BTreeSet;

pub struct Plan {
    receivers: BTreeSet<Place>,
    shots: Vec<Place>,
    /// Those of the receivers and of the shots that are killed.
    dead: BTreeSet<Place>,
    omitted: BTreeSet<Place>,
    relations: Vec<Relation>,
}

/// What the plans of a survey have so far; no two have the same.
#[derive(Default)]
pub struct Taken {
    receivers: BTreeSet<Place>,
    shots: BTreeSet<Place>,
    /// By tape and number.
    pub records: BTreeSet<(String, u32)>,
}

impl Plan {
    /// A plan on these lines with nothing of what is taken.
    pub fn new(random: &mut Random, size: &Size, names: &[String], taken: &mut Taken) -> Plan {
        let mut receivers = receivers(random, size, names);
        receivers.retain(|receiver| taken.receivers.insert(receiver.clone()));
        let mut shots = if receivers.is_empty() { Vec::new() } else { shots(random, size, names) };
        shots.retain(|shot| taken.shots.insert(shot.clone()));
        let [dead, omitted] = [killed(random, &receivers), killed(random, &shots)];
        let live: Vec<Place> =
            shots.iter().filter(|shot| !omitted.contains(shot)).cloned().collect();
        let relations = relations(random, size, &receivers, &live, taken);
        Plan { receivers, shots, dead, omitted, relations }
    }

    /// Receivers, shots, relation lines, traces and dead traces.
    pub fn counts(&self) -> [u64; 5] {
        [
            self.receivers.len() as u64,
            self.shots.len() as u64,
            self.relations.len() as u64,
            self.relations.iter().map(|relation| relation.traces()).sum(),
            self.relations.iter().map(|relation| relation.dead_traces(&self.dead)).sum(),
        ]
    }

    /// The lines of R, S and X, without markers.
    pub fn lines(&self, random: &mut Random) -> [Vec<Line>; 3] {
        let killed = |place| self.dead.contains(place);
        let r = self.receivers.iter().map(|place| place.point(random, File::R, killed(place)));
        let r = r.collect();
        let r = tables::few_codes(random, r);
        let s = in_time(random, &self.shots, &self.omitted);
        let s = tables::few_codes(random, s);
        let x = self.relations.iter().map(|relation| relation.line(random)).collect();
        [r, s, x]
    }
}
