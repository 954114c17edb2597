//! Files of any bytes: the verdict is the naive reader's, and the message is one of the table.

use crate::claims::made::{said_of, Refused};
use crate::message::{Message, Row};
use many_sets::faults::damage_more;
use many_sets::lines::{header, marker, point, relation};
use many_sets::media;
use many_sets::run::{random, turns};
use many_sets::sound::sound;
use small_sets::{set_a, File, Medium, Random, Set};

/// Bytes of any value, or of few values, up to some lines.
fn bytes(random: &mut Random) -> Vec<u8> {
    let length = random.below(500);
    match random.below(3) {
        0 => random.bytes(length),
        1 => (0..length).map(|_| random.pick(b"HRSX 0123\r\n\t\x1A.-")).collect(),
        _ => [&[0x1F, 0x8B][..], &random.bytes(length)].concat(),
    }
}

/// Set A with lines of any file behind its own, each in form.
fn lines(random: &mut Random) -> Set {
    (0..1 + random.below(9)).fold(set_a(), |set, _| {
        let (file, of) = (random_file(random), random_file(random));
        let text = match random.below(5) {
            0 => header(random),
            1 => marker(random, of),
            2 => relation(random),
            _ => point(random, of),
        };
        set.add(file, text)
    })
}

fn random_file(random: &mut Random) -> File {
    random.pick(&File::ALL)
}

/// A set with one file of any bytes, or several faults, or lines of any file.
fn any(random: &mut Random) -> Set {
    match random.below(4) {
        0 => {
            let mut set = set_a();
            *set.file_mut(random_file(random)) = bytes(random);
            Set { medium: random.pick(&[Medium::Disc, Medium::Tape]), ..set }
        }
        1 => lines(random),
        2 => {
            let (times, set) = (2 + random.below(4), sound(random).set);
            damage_more(random, set, times).0
        }
        _ => {
            let (times, set) = (1 + random.below(3), media::plain(random));
            let set = damage_more(random, set, times).0;
            set.on_tape().map_or(set, |tape| damage_more(random, tape, times).0)
        }
    }
}

#[test]
fn each_has_a_message() {
    let mut random = random(222);
    let sets = (0..turns(800)).map(|_| any(&mut random));
    let small = sets.filter(|set| File::ALL.iter().all(|file| set.lines(*file) < 1_000));
    let refused: Vec<Refused> = small.filter_map(Refused::of).collect();
    assert!(refused.len() > 600, "{} sets", refused.len());
    let rows = Row::all();
    for (refused, said) in refused.iter().zip(said_of("any_bytes", &refused)) {
        let (message, path, line, column) = Message::read(&said);
        assert!(path.ends_with(refused.name()), "{said}");
        let found = (message.number, line, column);
        assert_eq!(found, (refused.number, refused.line, refused.column), "{said}");
        Row::of_message(&rows, &message).hold(&message);
    }
}
