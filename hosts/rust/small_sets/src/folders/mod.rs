//! Small sets as folders for the program `cases`: the rows of the paper's table
//! that check a set, set A without points, laid out backwards, with more codes and with killed
//! points, a set for each refusal number, sets with two faults, and tapes.

mod one_fault;
mod two_faults;

use crate::table::{backwards, code_tables, decimals, killed, paper, tapes};
use crate::{headers_only, set_a, Set};

pub use one_fault::{one_fault, OneFault};
pub use two_faults::{two_faults, TwoFaults};

/// A folder with `set.r01`, `set.s01` and `set.x01`.
pub struct Folder {
    pub name: String,
    pub set: Set,
}

impl Folder {
    /// The three files by name.
    pub fn files(&self) -> [(&'static str, &[u8]); 3] {
        [("set.r01", &self.set.r), ("set.s01", &self.set.s), ("set.x01", &self.set.x)]
    }
}

/// All folders of disc files, in the order of the lines that the program prints.
pub fn folders() -> Vec<Folder> {
    let folder = |name: &str, set| Folder { name: name.to_string(), set };
    let mut folders = vec![
        folder("set_a", set_a()),
        folder("three_components", paper::three_components()),
        folder("odd_channel", paper::odd_channel()),
        folder("increment_2", paper::increment_2()),
        folder("missing_receiver", paper::missing_receiver()),
        folder("unsorted_receivers", paper::unsorted_receivers()),
        folder("other_blanks", paper::other_blanks()),
        folder("leading_zeros", paper::leading_zeros()),
        folder("moved_name", paper::moved_name()),
        folder("channel_again", paper::channel_again()),
        folder("covered_twice", paper::covered_twice()),
        folder("unnamed_shot", paper::unnamed_shot()),
        folder("r_of_81_bytes", paper::r_of_81_bytes()),
        folder("headers_only", headers_only()),
        folder("no_points", decimals::no_points()),
        folder("backwards", backwards::backwards()),
        folder("up_and_down", backwards::up_and_down()),
        folder("code_tables", code_tables::code_tables()),
        folder("killed_receiver", killed::killed_receiver()),
        folder("killed_receivers_between", killed::between()),
        folder("killed_shot", killed::killed_shot()),
        folder("killed_shot_named", killed::killed_shot_named()),
    ];
    folders.extend(one_fault().iter().map(|case| folder(&case.name(), case.set())));
    folders.extend(two_faults().iter().map(|case| folder(case.name, case.set())));
    folders
}

/// Folders of tapes, and the cases of the table that they hold.
const TAPES: [(&str, &str); 18] = [
    ("tape_set_a", "tape: set A"),
    ("tape_headers_only", "tape: headers only"),
    ("tape_every_character", "tape: every character in headers"),
    ("tape_bytes_behind_eof", "tape: byte 255 behind EOF"),
    ("tape_cut", "tape: S cut to 79 bytes"),
    ("tape_empty", "tape: R empty"),
    ("tape_without_eof", "tape: S without its EOF"),
    ("tape_second_eof", "tape: X with a second EOF"),
    ("tape_byte_0_and_no_eof", "tape: X of a byte 0 and no EOF"),
    ("tape_exclamation_mark", "tape: byte 90 in a header's free columns"),
    ("tape_odd_channel", "tape: an odd channel"),
    ("tape_digits_first", "tape: `1A`, `A1`"),
    ("tape_letters_first", "tape: `A1`, `1A`"),
    ("tape_s_on_disc", "tape: S on disc"),
    ("tape_code_tables", "25: two of each kind, on tape"),
    ("tape_unnamed_code", "25: G2 beside G1, on tape"),
    ("tape_killed", "killed: a receiver and a shot, on tape"),
    ("tape_killed_shot_named", "killed: the shot, named, on tape"),
];

/// All folders of tapes, in the order of the lines that the program prints.
pub fn tape_folders() -> Vec<Folder> {
    let cases = [tapes::cases(), code_tables::cases(), killed::cases()].concat();
    let set = |name| cases.iter().find(|case| case.name == name).expect("a case").set.clone();
    TAPES.map(|(name, case)| Folder { name: name.to_string(), set: set(case) }).into()
}
