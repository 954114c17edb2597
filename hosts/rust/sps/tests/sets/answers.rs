//! What each of the readers answers to a set.

use crate::wrapped::{self, wrapped};
use sps::{Accepted, Number, Refusal};

pub type Answer = Result<Accepted, Refusal>;

/// A refusal at a place of a file.
pub fn refused(number: u64, file: small_sets::File, line: u64, column: u64) -> Answer {
    Err(Refusal { number: Number::of(number), file: Some(wrapped::file(file)), line, column })
}

pub fn naive(set: &small_sets::Set) -> Answer {
    let medium = naive::medium(set.medium as u64).expect("a medium");
    match naive::check(medium, set.files()) {
        Ok(naive::Counts { receivers, shots, relations, traces, dead_traces }) => {
            Ok(Accepted { receivers, shots, relations, traces, dead_traces })
        }
        Err(naive::Refusal { number, file, line, column }) => {
            let file = file.map(|file| small_sets::File::ALL[file as usize]).expect("a place");
            refused(number.into(), file, line.into(), column.into())
        }
    }
}

pub fn proved(set: &small_sets::Set) -> Answer {
    wrapped(set).cross()
}

/// The number of an answer, as a C host gets it.
pub fn number(answer: Answer) -> u64 {
    match answer {
        Ok(accepted) => accepted.traces,
        Err(Refusal { number, file, line, column }) => {
            let file = file.map_or(0, |file| file as u64 + 1);
            (number.code() << 40) + (file << 32) + line * 256 + column
        }
    }
}
