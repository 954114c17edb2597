//! Fields of the files' own lines.

use super::{file, own_line};
use crate::damage::{damage, Fields};
use crate::lines::{codes, OF_POINTS, OF_RELATIONS};
use small_sets::{File, Line, Random, Set};

/// Changes one of a file's own lines.
fn edit(
    random: &mut Random,
    set: Set,
    file: File,
    change: impl FnOnce(&mut Random, Line) -> Line,
) -> Set {
    match own_line(random, &set, file) {
        Some(line) => set.edit(file, line, |text| change(random, text)),
        None => set,
    }
}

/// Columns with a text in them, which is as wide.
pub fn with(mut line: Line, (first, last): (usize, usize), text: &[u8]) -> Line {
    line.0[first - 1..last].copy_from_slice(text);
    line
}

/// The number in some columns.
pub fn number(line: &Line, (first, last): (usize, usize)) -> Option<u32> {
    std::str::from_utf8(&line.0[first - 1..last]).ok()?.trim().parse().ok()
}

/// Columns with a number in them, where they have room.
pub fn put(line: Line, (first, last): (usize, usize), number: u32) -> Line {
    let width = last + 1 - first;
    match format!("{number:width$}") {
        text if text.len() == width => with(line, (first, last), text.as_bytes()),
        _ => line,
    }
}

pub fn field(random: &mut Random, set: Set) -> Set {
    let file = file(random);
    let fields = if file == File::X { OF_RELATIONS } else { OF_POINTS };
    edit(random, set, file, |random, line| damage(random, line, fields))
}

/// Fields that belong together.
fn groups(file: File) -> Fields {
    match file {
        File::R => &[(2, 17), (2, 25), (2, 26), (18, 25), (18, 26)],
        File::S => &[(2, 17), (2, 25), (2, 26), (18, 26), (72, 80)],
        File::X => &[(2, 7), (2, 11), (2, 13), (2, 38), (14, 38), (48, 63), (48, 80), (39, 80)],
    }
}

/// From the line just before, or from any.
pub fn copied(random: &mut Random, set: Set) -> Set {
    let file = file(random);
    let group = random.pick(groups(file));
    let Some(line) = own_line(random, &set, file) else { return set };
    let from = match own_line(random, &set, file) {
        Some(any) if random.below(2) == 0 => any,
        _ => line - usize::from(line > 1),
    };
    let Line(text) = set.line(file, from);
    set.edit(file, line, |line| with(line, group, &text[group.0 - 1..group.1]))
}

/// Numbers that move together.
fn numbers(file: File) -> &'static [Fields] {
    match file {
        File::R | File::S => &[&[(18, 25)]],
        File::X => &[&[(8, 11)], &[(30, 37)], &[(39, 42), (43, 46)], &[(64, 71), (72, 79)]],
    }
}

/// By up to two.
pub fn moved(random: &mut Random, set: Set) -> Set {
    let file = file(random);
    let numbers = random.pick(numbers(file));
    let by = random.pick(&[-2, -1, 1, 2]);
    edit(random, set, file, |_, line| {
        numbers.iter().fold(line, |line, &field| {
            let moved = number(&line, field).and_then(|number| number.checked_add_signed(by));
            moved.map_or(line, |number| put(line, field, number))
        })
    })
}

/// A blank goes in or out after the first column.
pub fn blank(random: &mut Random, set: Set) -> Set {
    let file = file(random);
    let (first, last) = match file {
        File::R | File::S => (2, 17),
        File::X => random.pick(&[(2, 7), (14, 29), (48, 63)]),
    };
    edit(random, set, file, |random, mut line| {
        let name = &mut line.0[first..last];
        let at = random.below(name.len());
        match random.below(2) {
            0 => name[at..].rotate_left(1),
            _ => name[at..].rotate_right(1),
        }
        line
    })
}

pub fn digit(random: &mut Random, set: Set) -> Set {
    let file = file(random);
    let column = match file {
        File::R | File::S => 26,
        File::X => random.pick(&[12, 13, 38, 47, 80]),
    };
    edit(random, set, file, |random, line| {
        with(line, (column, column), &[random.pick(b" 123456789")])
    })
}

/// A point becomes a marker or another point, a marker a point.
pub fn code(random: &mut Random, set: Set) -> Set {
    let file = random.pick(&[File::R, File::S]);
    edit(random, set, file, |random, line| match random.below(3) {
        0 => line.code("PM"),
        1 => line.code("KL"),
        _ => with(line, (27, 28), &[random.pick(codes(file)), b'1']),
    })
}

pub fn killed(random: &mut Random, set: Set) -> Set {
    let file = random.pick(&[File::R, File::S]);
    edit(random, set, file, |_, line| line.code("KL"))
}

/// A day or a time that is near another.
pub fn moment(random: &mut Random, set: Set) -> Set {
    edit(random, set, File::S, |random, line| match random.below(2) {
        0 => line.day(random.pick(&[1, 2, 99, 100, 101, 999])),
        _ => line.time(random.pick(&["000000", "000001", "071244", "071246", "235958", "235959"])),
    })
}

/// A shot more, beside another one and at its time.
pub fn more_shots(random: &mut Random, set: Set) -> Set {
    let Some(beside) = own_line(random, &set, File::S) else { return set };
    let shot = set.line(File::S, beside).point(random.below(20) as u32);
    set.insert(File::S, beside + random.below(2), shot)
}
