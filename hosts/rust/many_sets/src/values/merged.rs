//! The lines of several crews as those of one set.

use naive::{PointValues, RelationValues};

/// The values of the own lines of R, S and X.
#[derive(Clone, Debug, Default)]
pub struct SetValues {
    pub r: Vec<PointValues>,
    pub s: Vec<PointValues>,
    pub x: Vec<RelationValues>,
}

/// All lines in the order that the set check wants: receivers by line name, point and index,
/// shots by day and time, and the relations of each shot where it stands in S. The crews share no
/// receiver, shot or record.
pub fn merged(crews: &[SetValues]) -> SetValues {
    let mut all = SetValues::default();
    for SetValues { r, s, x } in crews {
        all.r.extend(r);
        all.s.extend(s);
        all.x.extend(x);
    }
    let place = |point: &PointValues| (point.name, point.number, point.index);
    all.r.sort_by_key(place);
    all.s.sort_by_key(|shot| (shot.day, shot.time));
    let in_s = |relation: &RelationValues| {
        let source = (relation.source_name, relation.source_number, relation.source_index);
        all.s.iter().position(|shot| place(shot) == source)
    };
    all.x.sort_by_cached_key(in_s);
    all
}
