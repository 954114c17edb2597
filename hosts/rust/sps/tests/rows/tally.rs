//! What the sets of a run hold.

use crate::hold::Told;
use naive::Row;

/// How many sets are accepted and refused, and how many rows are of killed receivers, of a
/// component above the first, and of spreads that run down the stations.
#[derive(Debug, Default)]
pub struct Tally {
    pub accepted: u64,
    pub refused: u64,
    pub killed: u64,
    pub components: u64,
    pub backwards: u64,
}

impl Tally {
    pub fn count(&mut self, told: &Told) {
        let number = |of: fn(&Row) -> bool| told.rows.iter().filter(|row| of(row)).count() as u64;
        self.accepted += u64::from(!told.is_refused());
        self.refused += u64::from(told.is_refused());
        self.killed += number(|row| row.trace.killed);
        self.components += number(|row| row.trace.component > 1);
        let down = |pair: &&[Row]| {
            pair[0].x_line == pair[1].x_line && pair[0].trace.r_line > pair[1].trace.r_line
        };
        self.backwards += told.rows.windows(2).filter(down).count() as u64;
    }

    /// Each of the rows turns up so many times.
    pub fn holds(&self, least: u64) {
        let rows = [self.killed, self.components, self.backwards];
        assert!(rows.into_iter().all(|rows| rows >= least), "too few: {self:?}");
    }
}
