//! Whole files: 1 to 6 in their order.

use many_sets::run::{random, turns};
use naive::{check, File, Medium};
use probe::Refusal;
use small_sets::{header, marker, receiver, relation, shot, Line, Random};
use std::collections::BTreeSet;

const WIDTH: usize = 82;

/// What both readers refuse a file for. The naive reader gets it among empty
/// files, which 1 to 6 take; what it refuses after that is no matter of form.
fn form(file: File, bytes: &[u8]) -> Option<Refusal> {
    let files: [&[u8]; 3] = match file {
        File::R => [bytes, b"", b""],
        File::S => [b"", bytes, b""],
        File::X => [b"", b"", bytes],
    };
    let refusal =
        check(Medium::Disc, files).err().filter(|refusal| refusal.number <= 6).map(|refusal| {
            Refusal {
                number: refusal.number.into(),
                file: refusal.file.map_or(0, |file| file as u64 + 1),
                line: refusal.line.into(),
                column: refusal.column.into(),
            }
        });
    assert_eq!(probe::form(bytes, file as u8 + 1), refusal, "{file:?} {}", bytes.escape_ascii());
    refusal
}

/// A file in form: up to three header lines, then up to four of its own.
fn lines(random: &mut Random, file: File) -> Vec<u8> {
    let headers = (0..random.below(4)).map(header).collect::<Vec<Line>>();
    let own = (0..random.below(5)).map(|_| match (file, random.below(4)) {
        (File::X, _) => relation(),
        (File::R, 0) => marker(small_sets::File::R),
        (File::S, 0) => marker(small_sets::File::S),
        (File::R, n) => receiver(n as u32),
        (File::S, n) => shot(n as u32),
    });
    bytes(headers.into_iter().chain(own.collect::<Vec<Line>>()))
}

fn bytes(lines: impl IntoIterator<Item = Line>) -> Vec<u8> {
    lines.into_iter().flat_map(|Line(line)| line.into_iter().chain(*b"\r\n")).collect()
}

/// A file with one thing changed, wrong or not.
fn damage(random: &mut Random, mut file: Vec<u8>) -> Vec<u8> {
    if file.is_empty() {
        return random.bytes(1);
    }
    let place = random.below(file.len());
    let line = place / WIDTH * WIDTH;
    match random.below(9) {
        0 => file[place] = random.bytes(1)[0],
        1 => file.truncate(place),
        2 => file[line] = random.pick(b"HRSX"),
        // A header line somewhere.
        3 => drop(file.splice(line..line, bytes([header(0)]))),
        // Another end of the line.
        4 => {
            let column = 80 + random.below(2);
            if let Some(byte) = file.get_mut(line + column) {
                *byte = random.pick(b" \r\n");
            }
        }
        // Digits all over are a fault of a field, or numbers that do not agree.
        _ => file[place] = random.pick(b"0123456789"),
    }
    file
}

#[test]
fn files() {
    for (file, salt, numbers) in [
        (File::R, 20, vec![1, 3, 4, 5]),
        (File::S, 21, vec![1, 3, 4, 5]),
        (File::X, 22, vec![1, 3, 4, 5, 6]),
    ] {
        let mut random = random(salt);
        let mut taken = 0;
        let mut refused = BTreeSet::new();
        for _ in 0..turns(6_000) {
            let sound = lines(&mut random, file);
            assert_eq!(form(file, &sound), None);
            let times = 1 + random.below(3);
            let damaged = (0..times).fold(sound, |bytes, _| damage(&mut random, bytes));
            match form(file, &damaged) {
                None => taken += 1,
                Some(refusal) => drop(refused.insert(refusal.number)),
            }
        }
        assert!(taken > 100, "{taken} of the damaged files are taken");
        assert_eq!(refused, numbers.into_iter().collect());
    }
}

/// 9,999 lines are not too many, 10,000 are; a byte more is named first.
#[test]
fn most_lines() {
    let refused = |file, number| Some(Refusal { number, file, line: 10_000, column: 0 });
    for (file, line) in [(File::R, receiver(1)), (File::S, shot(1)), (File::X, relation())] {
        let mut full = bytes(vec![line; 9_999]);
        assert_eq!(form(file, &full), None);
        full.extend(bytes([line]));
        assert_eq!(form(file, &full), refused(file as u64 + 1, 2));
        full.push(b'R');
        assert_eq!(form(file, &full), refused(file as u64 + 1, 1));
    }
}
