//! Random lines that obey the rules of form.

use crate::damage::Fields;
use crate::fields::{coordinate, decimal, index, name, or_blank, pointed, text, whole};
use small_sets::{File, Line, Random};

/// The fields of header lines.
pub const OF_HEADERS: Fields = &[(2, 3), (4, 4)];

/// The fields of lines of R and S.
pub const OF_POINTS: Fields = &[
    (2, 17),
    (18, 25),
    (26, 26),
    (27, 28),
    (29, 32),
    (33, 36),
    (37, 40),
    (41, 42),
    (43, 46),
    (47, 55),
    (56, 65),
    (66, 71),
    (72, 74),
    (75, 80),
];

/// The fields of lines of X.
pub const OF_RELATIONS: Fields = &[
    (2, 7),
    (8, 11),
    (12, 12),
    (13, 13),
    (14, 29),
    (30, 37),
    (38, 38),
    (39, 42),
    (43, 46),
    (47, 47),
    (48, 63),
    (64, 71),
    (72, 79),
    (80, 80),
];

pub fn header(random: &mut Random) -> Line {
    Line([b' '; 80])
        .at(1, "H")
        .at(2, &format!("{:02}", random.below(100)))
        .at(4, &char::from(random.pick(b" 0123456789")).to_string())
        .at(5, &text(random, 76))
}

/// The letters of the codes of R, or else of S.
pub fn codes(file: File) -> &'static [u8] {
    match file {
        File::R => b"GHR",
        File::S | File::X => b"VEAWS",
    }
}

/// The code of a point that is not killed.
pub fn live(random: &mut Random, file: File) -> String {
    [random.pick(codes(file)), random.pick(b"123456789")].map(char::from).iter().collect()
}

/// A receiver, or else a shot; at times a killed one.
pub fn point(random: &mut Random, file: File) -> Line {
    let code = match random.below(10) {
        0 => "KL".to_owned(),
        _ => live(random, file),
    };
    let number = whole(random, 8, 0..=99_999_999);
    let line = common(random, file, &code).at(18, &number);
    let static_correction = whole(random, 4, -999..=999);
    let uphole = whole(random, 2, 0..=99);
    let water_depth = match random.below(2) {
        0 => pointed(random, 4, 0..=999),
        _ => whole(random, 4, 0..=999),
    };
    line.at(29, &or_blank(random, static_correction))
        .at(33, &decimal(random, 4, 0..=999))
        .at(37, &whole(random, 4, -999..=9_999))
        .at(41, &or_blank(random, uphole))
        .at(43, &or_blank(random, water_depth))
        .at(72, &whole(random, 3, 1..=999))
        .at(75, &time(random))
}

/// A marker: its other columns are free text.
pub fn marker(random: &mut Random, file: File) -> Line {
    common(random, file, "PM")
        .at(18, &text(random, 8))
        .at(29, &text(random, 18))
        .at(72, &text(random, 9))
}

/// What is checked in a marker too.
fn common(random: &mut Random, file: File, code: &str) -> Line {
    Line([b' '; 80])
        .at(1, file.letter())
        .at(2, &name(random, 16))
        .at(26, &index(random))
        .at(27, code)
        .at(47, &coordinate(random, 9))
        .at(56, &coordinate(random, 10))
        .at(66, &decimal(random, 6, -9_999..=99_999))
}

pub fn time(random: &mut Random) -> String {
    format!("{:02}{:02}{:02}", random.below(24), random.below(60), random.below(60))
}

/// A relation line whose channels and receivers agree; half of them descend.
pub fn relation(random: &mut Random) -> Line {
    let increment = index(random);
    let ([from_channel, to_channel], ends) = agreeing(random, increment.parse().unwrap_or(1));
    let mut exactly = |width, number: usize| whole(random, width, number as i64..=number as i64);
    let channels = [exactly(4, from_channel), exactly(4, to_channel)];
    let numbers = ends.map(|end| exactly(8, end));
    Line([b' '; 80])
        .at(1, "X")
        .at(2, &name(random, 6))
        .at(8, &whole(random, 4, 0..=9_999))
        .at(12, &index(random))
        .at(13, &index(random))
        .at(14, &name(random, 16))
        .at(30, &whole(random, 8, 0..=99_999_999))
        .at(38, &index(random))
        .at(39, &channels.concat())
        .at(47, &increment)
        .at(48, &name(random, 16))
        .at(64, &numbers.concat())
        .at(80, &index(random))
}

/// From and to channel, and from and to receiver, that agree for so many components.
pub fn agreeing(random: &mut Random, components: usize) -> ([usize; 2], [usize; 2]) {
    let from_channel = 1 + random.below(9_999 - components + 1);
    let most = (9_999 - from_channel + 1) / components;
    let receivers = 1 + random.below(most);
    let to_channel = from_channel + receivers * components - 1;
    let lowest = random.below(99_999_999 - receivers + 2);
    let ends = either_way(random, lowest, lowest + receivers - 1);
    ([from_channel, to_channel], ends)
}

/// From and to receiver by the lowest and the highest, as often counted up as down.
pub fn either_way<T>(random: &mut Random, lowest: T, highest: T) -> [T; 2] {
    match random.below(2) {
        0 => [lowest, highest],
        _ => [highest, lowest],
    }
}
