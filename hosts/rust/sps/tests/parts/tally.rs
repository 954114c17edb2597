//! How many sets each part refuses.

use small_sets::File;

/// What refuses a set.
#[derive(Clone, Copy, Debug)]
pub enum Refused {
    /// Nothing: it is accepted.
    No,
    /// The form of a file.
    Form(File),
    /// The cross-check alone.
    Cross,
}

/// The sets that are accepted, refused for the form of R, S and X, and by the cross-check
/// alone.
#[derive(Debug, Default)]
pub struct Tally([u64; 5]);

impl Tally {
    pub fn count(&mut self, refused: Refused) {
        let place = match refused {
            Refused::No => 0,
            Refused::Form(file) => file as usize,
            Refused::Cross => 4,
        };
        self.0[place] += 1;
    }

    /// There are so many of each.
    pub fn holds(&self, least: u64) {
        assert!(self.0.iter().all(|sets| *sets >= least), "{self:?}");
    }
}
