//! The parts of one set, held to each other.

use crate::archive::{self, Files};
use crate::keep::keep;
use crate::tally::Refused;
use naive::HostNumber;
use small_sets::{tape, Answer, File, Medium, Set};

/// Keeps a set where the number that is found of it is not the one that is expected.
fn same(set: &Set, how: &str, found: u64, expected: u64) {
    if found != expected {
        let kept = keep(set);
        let kept = kept.display();
        panic!("{how}\n  found    {found:x}\n  expected {expected:x}\n  the files are in {kept}");
    }
}

/// The form of a file as a kind; both readers agree on it.
fn form(set: &Set, file: File, kind: File, how: &str) -> u64 {
    let (bytes, medium) = (set.file(file), set.medium as u64);
    let proved = archive::form(medium, kind.kind(), bytes);
    let medium = naive::medium(medium).expect("a medium");
    let naive = naive::form(medium, kind.kind(), bytes).host_number();
    same(set, &format!("{how}: {file:?} as {kind:?}"), proved, naive);
    proved
}

/// Holds the cross-check of a set to the forms of its files. Where one is refused it refuses
/// alike, for the first of them in the order R, S, X; where none is it accepts, or refuses
/// for another number.
pub fn parts(set: &Set, how: &str) -> Refused {
    let Set { medium, r, s, x } = set;
    let cross = archive::cross(Files { medium: *medium as u64, r, s, x });
    let forms = File::ALL.map(|file| (file, form(set, file, file, how)));
    if let Some((file, form)) = forms.into_iter().find(|(_, form)| *form != 0) {
        same(set, &format!("{how}: the cross-check"), cross, form);
        return Refused::Form(file);
    }
    match cross >> 40 {
        0 => Refused::No,
        7..=19 | 24 | 25 => Refused::Cross,
        number => panic!("{how}: {number} of well-formed files, in {}", keep(set).display()),
    }
}

/// Holds each file of a set as each other kind. A well-formed one is refused by 4 at its first
/// line below the header, and without such a line it is of each kind. Returns how many are
/// refused.
pub fn kinds(set: &Set, how: &str) -> u64 {
    let mut refused = 0;
    for file in File::ALL {
        let own = form(set, file, file, how);
        for kind in File::ALL.into_iter().filter(|kind| *kind != file) {
            let found = form(set, file, kind, how);
            if own == 0 {
                let expected = first_line(set, file).map_or(Answer::Formed, |line| {
                    Answer::Refused { number: 4, file: kind as u8, line: line as u32, column: 1 }
                });
                let how = format!("{how}: {file:?} as {kind:?}, well formed");
                same(set, &how, found, expected.host_number());
                refused += u64::from(found != 0);
            }
        }
    }
    refused
}

/// The first line below the header of a well-formed file.
fn first_line(set: &Set, file: File) -> Option<usize> {
    let (letter, end) = match set.medium {
        Medium::Disc => (b'H', 0),
        Medium::Tape => (tape::byte_of(b'H').expect("a character of a tape"), 1),
    };
    (1..=set.lines(file) - end).find(|&line| set.file(file)[set.start(line)] != letter)
}
