//! The sets of the tests, as the wrapper takes them.

use small_sets::{File, Medium, Set};

pub fn wrapped(set: &Set) -> sps::Set<'_> {
    sps::Set::new(medium(set.medium), &set.r, &set.s, &set.x)
}

pub fn medium(medium: Medium) -> sps::Medium {
    match medium {
        Medium::Disc => sps::Medium::Disc,
        Medium::Tape => sps::Medium::Tape,
    }
}

pub fn file(file: File) -> sps::File {
    match file {
        File::R => sps::File::R,
        File::S => sps::File::S,
        File::X => sps::File::X,
    }
}
