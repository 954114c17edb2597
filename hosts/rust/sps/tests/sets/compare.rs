//! One set, both readers.

use crate::answers::{naive, proved, Answer};
use crate::counts::compare_counts;
use crate::keep::keep;
use small_sets::Set;

/// Holds the readers together on a set, and returns what they agree on.
pub fn compare(set: &Set, how: &str) -> Answer {
    let (naive, proved) = (naive(set), proved(set));
    if proved != naive {
        let kept = keep(set);
        let kept = kept.display();
        panic!("{how}\n  proved {proved:?}\n  naive  {naive:?}\n  the files are in {kept}");
    }
    proved
}

/// The same; and the calls with and without counts answer alike.
pub fn compare_calls(set: &Set, how: &str) -> Answer {
    let answer = compare(set, how);
    compare_counts(set, answer, 41, how);
    answer
}

/// How many sets are accepted, and refused for each number.
#[derive(Default)]
pub struct Tally([u64; 30]);

impl Tally {
    pub fn count(&mut self, answer: Answer) {
        let number = answer.err().map_or(0, |refusal| refusal.number.code());
        self.0[number as usize] += 1;
    }

    pub fn sets(&self) -> u64 {
        self.0.iter().sum()
    }

    /// Some sets are accepted, and some refused for each of the numbers.
    pub fn holds(&self, numbers: impl IntoIterator<Item = usize>, least: u64) {
        for number in numbers.into_iter().chain([0]) {
            assert!(self.0[number] >= least, "too few of {number}: {:?}", self.0);
        }
    }
}
