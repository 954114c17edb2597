//! Any bytes of any length get an answer, and every refusal has a place that
//! its rule can name.

use naive::{channel, form, show, spread, table_line, trace, Counts, File, Refusal};
use small_sets::place::{below, first, header_line, last_header};
use small_sets::{set_a, tape, Medium, Random, Set};
use std::collections::BTreeSet;

const FILES: [small_sets::File; 3] = small_sets::File::ALL;

/// The first columns of the fields of header and point lines, and of header and relation lines.
const OF_POINTS: [u8; 15] = [2, 4, 18, 26, 27, 29, 33, 37, 41, 43, 47, 56, 66, 72, 75];
const OF_RELATIONS: [u8; 15] = [2, 4, 8, 12, 13, 14, 30, 38, 39, 43, 47, 48, 64, 72, 80];

/// Whether a rule can name this file and column.
fn may_name(number: u8, file: File, column: u8) -> bool {
    use File::{R, S, X};
    match (number, file) {
        (1 | 2 | 29, _) | (7, R) => column == 0,
        (3, _) => (1..=82).contains(&column),
        (4, _) | (15, S) => column == 1,
        (5, R | S) => OF_POINTS.contains(&column),
        (5, X) => OF_RELATIONS.contains(&column),
        (6, X) => [39, 47, 72].contains(&column),
        (8, R) => column == 33,
        (9, S | X) => column <= 80,
        (10, R) | (12, S) | (16, X) => column == 2,
        (11, S) => column == 72,
        (13 | 14, X) => column == 14,
        (17, X) => column == 39,
        (18 | 19, X) => column == 64,
        (24, R) => column == 33,
        (25, R | S) => column == 27,
        (25, X) => column == 13,
        _ => false,
    }
}

/// Set A, and its tape.
fn media() -> [Set; 2] {
    [set_a(), set_a().on_tape().expect("a tape")]
}

/// The medium and the files of a set, as the reader takes them.
fn lent(set: &Set) -> (naive::Medium, naive::Files<'_>) {
    (naive::medium(set.medium as u64).expect("a medium"), set.files())
}

/// Checks a set. Where the form of one of its files is refused, so is the set, for the first of
/// them; where none is, the set is refused for no matter of form.
fn check(set: &Set) -> Result<Counts, Refusal> {
    let (medium, files) = lent(set);
    let verdict = naive::check(medium, files);
    let mut kinds = files.into_iter().zip(FILES.map(small_sets::File::kind));
    match kinds.try_for_each(|(file, kind)| form(medium, kind, file)) {
        Err(refusal) => assert_eq!(verdict, Err(refusal)),
        Ok(()) => assert!(!verdict.is_err_and(|of| matches!(of.number, 1..=6 | 29)), "{verdict:?}"),
    }
    verdict
}

fn hold(set: &Set, refusal: Refusal) {
    let Refusal { number, file, line, column } = refusal;
    let file = file.unwrap_or_else(|| panic!("no file: {refusal:?}"));
    assert!(may_name(number, file, column), "{refusal:?}");
    assert!(number != 29 || set.medium == Medium::Tape, "{refusal:?}");
    assert!(usize::from(column) <= set.medium.width(), "{refusal:?}");
    let lines = set.lines(FILES[file as usize]);
    assert!((1..=lines + 1).contains(&(line as usize)), "{refusal:?}");
}

/// Asks everything of a set, and holds the answers together.
fn ask(set: &Set) {
    let (medium, files) = lent(set);
    let verdict = check(set);
    let tape = b"100   ";
    let (mut lines, mut components) = ([7; 10_000], [7; 10_000]);
    let highest = spread(medium, files, tape, 11, &mut lines, &mut components);
    if let Err(refusal) = verdict {
        hold(set, refusal);
        assert_eq!(highest, Err(refusal));
        assert_eq!(trace(medium, files, tape, 11, 2), Err(refusal));
        assert_eq!(channel(medium, files, tape, 11, below(2) as u64, 1), Err(refusal));
        assert_eq!(table_line(medium, files, b'R'.into(), b"G1"), Err(refusal));
        assert!(lines.iter().all(|&line| line == 7) && components.iter().all(|&c| c == 7));
        return;
    }
    let highest = highest.expect("the set is accepted");
    let named = table_line(medium, files, b'R'.into(), b"G1").expect("the set is accepted");
    assert_eq!(named, Some(header_line(600) as u16));
    for asked in [1, 2, 3, 4, 9_999] {
        let place = asked as usize - 1;
        let found = trace(medium, files, tape, 11, asked).expect("the set is accepted");
        if asked > u64::from(highest) {
            assert_eq!((found, lines[place], components[place]), (None, 7, 7));
            continue;
        }
        let (line, component) = found.map_or((0, 0), |t| (t.r_line, t.component));
        assert_eq!((line, component), (lines[place], components[place]));
        if found.is_some() {
            let back = channel(medium, files, tape, 11, line.into(), component.into());
            assert_eq!(back, Ok(Some(asked as u16)));
        }
    }
}

#[test]
fn random_bytes() {
    let mut random = Random::new(0x5eed_0001);
    for turn in 0..4_000 {
        let medium = random.pick(&[Medium::Disc, Medium::Tape]);
        let mut length = || match turn % 3 {
            0 => random.below(200),
            1 => medium.width() * random.below(4),
            _ => random.below(2_000),
        };
        let lengths = [length(), length(), length()];
        let [r, s, x] = lengths.map(|length| random.bytes(length));
        let set = Set { medium, r, s, x };
        hold(&set, check(&set).expect_err("no header"));
        let letter = random.pick(b"RSXH\0");
        let shown = show(&set.r, &set.s, letter, random.below(30));
        assert!(shown.is_empty() || shown.len() == 80);
    }
}

/// Set A cut at every length: 1 unless whole lines are left. A tape has then lost the
/// record that ends it.
#[test]
fn every_length() {
    for a in media() {
        let width = a.medium.width();
        for (file, named) in FILES.into_iter().zip([File::R, File::S, File::X]) {
            for length in 0..a.file(file).len() {
                let set = a.clone().cut(file, length);
                let refusal = check(&set).expect_err("set A needs every line");
                hold(&set, refusal);
                let number = match set.medium {
                    _ if length % width != 0 => 1,
                    Medium::Tape => 29,
                    Medium::Disc => continue,
                };
                let line = (length / width) as u32 + 1;
                let expected = Refusal { number, file: Some(named), line, column: 0 };
                assert_eq!(refusal, expected);
            }
        }
    }
}

/// Set A with each byte replaced: 3 at that place where the byte is out of range. Of the
/// record that ends a tape three columns are read, and 29 tells of them.
#[test]
fn every_byte() {
    for a in media() {
        for (file, named) in FILES.into_iter().zip([File::R, File::S, File::X]) {
            for position in 0..a.file(file).len() {
                let (line, column) = (position / a.medium.width(), position % a.medium.width());
                let damaged = |byte| a.clone().byte(file, line + 1, column + 1, byte);
                let (line, column) = (line as u32 + 1, column as u8 + 1);
                let at = |number, line, column| Refusal { number, file: Some(named), line, column };
                let end = a.lines(file) as u32;
                let expected = match a.medium {
                    Medium::Tape if line == end && column > 3 => None,
                    Medium::Tape if line == end => Some(at(29, end + 1, 0)),
                    _ => Some(at(3, line, column)),
                };
                assert_eq!(check(&damaged(0x80)).err(), expected);
                for byte in *b" 02HM-." {
                    let set = damaged(byte_on(a.medium, byte));
                    if let Err(refusal) = check(&set) {
                        hold(&set, refusal);
                    }
                }
            }
        }
    }
}

/// A character as a medium has it.
fn byte_on(medium: Medium, character: u8) -> u8 {
    match medium {
        Medium::Disc => character,
        Medium::Tape => tape::byte_of(character).expect("a character of a tape"),
    }
}

/// One byte of a data line replaced by one that may stand there, or a data line
/// repeated at the end.
fn damage(set: Set, random: &mut Random) -> Set {
    let file = FILES[random.below(3)];
    let line = first() + random.below(set.lines(file) - last_header());
    if random.below(4) == 0 {
        let text = set.line(file, line);
        return set.add(file, text);
    }
    let byte = random.pick(b"  0123459.-GVPMKL");
    set.byte(file, line, 1 + random.below(80), byte)
}

/// Set A damaged one to four times; accepted sets and all these refusals turn up.
#[test]
fn random_damage() {
    let mut random = Random::new(0x5eed_0002);
    let a = set_a();
    let mut accepted = 0;
    let mut numbers = BTreeSet::new();
    for _ in 0..4_000 {
        let times = 1 + random.below(4);
        let set = (0..times).fold(a.clone(), |set, _| damage(set, &mut random));
        ask(&set);
        ask(&set.on_tape().expect("a tape"));
        match check(&set) {
            Ok(_) => accepted += 1,
            Err(refusal) => drop(numbers.insert(refusal.number)),
        }
    }
    assert!(accepted > 100, "{accepted} accepted");
    for number in [4, 5, 6, 10, 11, 12, 13, 15, 16, 17, 18, 25] {
        assert!(numbers.contains(&number), "no {number} in {numbers:?}");
    }
}
