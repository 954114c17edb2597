//! Two crews of one survey, whose sets can be merged.

use super::plan::{Plan, Taken};
use super::{headers, names, tables, with_header, Size, Sound};
use crate::backwards;
use crate::faults::number;
use crate::spellings::Spelling;
use small_sets::{Line, Random};

const SIZE: Size = Size { run: 12, shots: 8, lines: 3, covered: 8 };

/// The header of both sets, and the sets.
pub struct Crews {
    pub header: Vec<Line>,
    pub sets: [Sound; 2],
}

/// How a crew writes its decimals, and which way it counts the receivers of a relation line.
type Way = (Spelling, fn(Line) -> Line);

/// The lines of R, S and X.
type Lines = [Vec<Line>; 3];

/// A crew that writes no points, and one whose spreads descend. They are on the same lines and
/// share no receiver, shot or record. Each shoots before the other is done; there are no markers.
pub fn crews(random: &mut Random) -> Crews {
    let ways: [Way; 2] =
        [(Spelling::Bare, ascending), (Spelling::Pointed, |line| backwards::line(ascending(line)))];
    loop {
        let (names, mut taken) = (names::of_lines(random), Taken::default());
        let crews = ways.map(|(spelling, turn)| {
            let plan = Plan::new(random, &SIZE, &names, &mut taken);
            (plan.counts(), written(plan.lines(random), spelling, turn))
        });
        let [(_, first), (_, second)] = &crews;
        if !first[2].is_empty() && second[2].iter().any(descends) && overlap(first, second) {
            let [first, second] = [first, second].map(|[r, s, x]| tables::used(r, s, x));
            let header = headers::block(random, &(&first | &second));
            let sets =
                crews.map(|(counts, lines)| Sound { set: with_header(&header, lines), counts });
            return Crews { header, sets };
        }
    }
}

/// Points in a spelling, relations as `turn` counts their receivers.
fn written([r, s, x]: Lines, spelling: Spelling, turn: fn(Line) -> Line) -> Lines {
    let points = |lines: Vec<Line>| lines.into_iter().map(|line| spelling.line(line)).collect();
    [points(r), points(s), x.into_iter().map(turn).collect()]
}

/// A relation line that counts its receivers up.
fn ascending(line: Line) -> Line {
    match descends(&line) {
        true => backwards::line(line),
        false => line,
    }
}

fn descends(line: &Line) -> bool {
    number(line, (64, 71)) > number(line, (72, 79))
}

/// Whether each crew has a shot before one of the other.
fn overlap([_, one, _]: &Lines, [_, other, _]: &Lines) -> bool {
    let first = |shots: &[Line]| shots.first().map(moment);
    let last = |shots: &[Line]| shots.last().map(moment);
    first(one) < last(other) && first(other) < last(one)
}

/// Day and time, which are right justified.
fn moment(shot: &Line) -> [u8; 9] {
    std::array::from_fn(|at| shot.0[71 + at])
}
