//! Which kinds of answers there are.

use small_sets::Answer;

#[derive(Clone, Copy, Debug)]
pub enum Kind {
    Found,
    Nothing,
    /// 1 to 19, 24 and 25.
    OfTheSet,
    /// 20.
    OutOfRange,
    /// 21.
    TooShort,
}

impl Kind {
    fn of(answer: &Answer) -> Kind {
        match answer {
            Answer::NoTrace | Answer::NotNamed | Answer::Spread { highest: 0, .. } => Kind::Nothing,
            Answer::Refused { number: 20, .. } => Kind::OutOfRange,
            Answer::Refused { number: 21, .. } => Kind::TooShort,
            Answer::Refused { .. } => Kind::OfTheSet,
            _ => Kind::Found,
        }
    }
}

/// How many answers there are of each kind.
#[derive(Default)]
pub struct Tally([u64; 5]);

impl Tally {
    pub fn count(&mut self, answer: &Answer) {
        self.0[Kind::of(answer) as usize] += 1;
    }

    /// Each of the kinds turns up so many times.
    pub fn holds(&self, least: &[(Kind, u64)]) {
        for &(kind, least) in least {
            assert!(self.0[kind as usize] >= least, "too few of {kind:?}: {:?}", self.0);
        }
    }
}
