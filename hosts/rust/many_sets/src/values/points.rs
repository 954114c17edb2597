//! The values of points.

use super::rules::Rule::{Range, Time, WaterDepth};
use super::{name, NameField, NumberField, Spoil, Values};
use naive::PointValues;
use small_sets::{codes, File, Random};

impl Values for PointValues {
    /// A negative number is a very large one where there are no negatives.
    const NUMBERS: &'static [NumberField<Self>] = &[
        ("letter", Range(b'R' as i64, b'S' as i64), |values, number| {
            values.letter = number as u64;
        }),
        ("state", Range(0, 1), |values, number| values.state = number as u64),
        ("point number", Range(0, 99_999_999), |values, number| values.number = number as u64),
        ("point index", Range(1, 9), |values, number| values.index = number as u64),
        ("static", Range(-999, 999), |values, number| values.static_correction = Some(number)),
        ("depth", Range(0, 999), |values, number| values.depth = number),
        ("seismic datum", Range(-999, 9_999), |values, number| values.datum = number),
        ("uphole", Range(0, 99), |values, number| values.uphole = Some(number)),
        ("water depth", WaterDepth, |values, number| values.water_depth = Some(number)),
        ("easting", Range(-99_999_999, 999_999_999), |values, number| values.easting = number),
        ("northing", Range(-999_999_999, 9_999_999_999), |values, number| {
            values.northing = number;
        }),
        ("elevation", Range(-9_999, 99_999), |values, number| values.elevation = number),
        ("day", Range(1, 999), |values, number| values.day = number as u64),
        ("time", Time, |values, number| values.time = number as u64),
    ];

    const NAMES: &'static [NameField<Self>] = &[("line name", |values| &mut values.name)];

    const SPOILS: &'static [Spoil<Self>] =
        &[("state", other_state), ("point code", no_code), ("point code", marker)];

    fn legal(random: &mut Random) -> Self {
        let least = PointValues::least(random);
        let mut values = least;
        for (_, rule, put) in Self::NUMBERS {
            put(&mut values, rule.any(random));
        }
        for value in [&mut values.static_correction, &mut values.uphole, &mut values.water_depth] {
            *value = value.filter(|_| random.below(4) > 0);
        }
        PointValues { letter: least.letter, state: least.state, ..values }
    }

    /// What may be absent is, and other numbers are as low as can be.
    fn least(random: &mut Random) -> Self {
        let file = random.pick(&[File::R, File::S]);
        let codes: Vec<[u8; 2]> = codes(file).into_iter().filter(|code| code != b"PM").collect();
        let code = match random.below(4) {
            0 => *b"KL",
            _ => random.pick(&codes),
        };
        PointValues {
            letter: file.kind(),
            state: state_of(code),
            name: name(random),
            number: 0,
            index: 1,
            code,
            static_correction: None,
            depth: 0,
            datum: 0,
            uphole: None,
            water_depth: None,
            easting: 0,
            northing: 0,
            elevation: 0,
            day: 1,
            time: 0,
        }
    }

    /// The code is one of the file, and the state is the code's.
    fn agree(&self) -> bool {
        let own = [File::R, File::S].into_iter().find(|file| file.kind() == self.letter);
        own.is_some_and(|file| codes(file).contains(&self.code))
            && self.state == state_of(self.code)
    }
}

/// The state of a point with a code.
fn state_of(code: [u8; 2]) -> u64 {
    match &code {
        b"KL" => PointValues::KILLED,
        b"PM" => PointValues::MARKER,
        _ => PointValues::LIVE,
    }
}

/// A killed point as a live one, or the other way round.
fn other_state(_: &mut Random, values: &mut PointValues) {
    values.state = match values.state {
        PointValues::LIVE => PointValues::KILLED,
        _ => PointValues::LIVE,
    };
}

/// A live point with a code of the other file alone, or with two bytes that are none.
fn no_code(random: &mut Random, values: &mut PointValues) {
    let [receivers, shots] = [File::R, File::S].map(codes);
    let all = [&receivers[..], &shots[..]].concat();
    values.state = PointValues::LIVE;
    while values.agree() || values.code == *b"KL" {
        let code = random.pick(&all);
        values.code = match random.below(4) {
            0 => code,
            1 => code.map(|byte| byte.to_ascii_lowercase()),
            2 => [code[0], random.pick(b"0: ")],
            _ => std::array::from_fn(|_| random.bytes(1)[0]),
        };
    }
}

/// A marker by its code, whatever state it is given.
fn marker(random: &mut Random, values: &mut PointValues) {
    values.code = *b"PM";
    values.state = random.pick(&[PointValues::LIVE, PointValues::KILLED, PointValues::MARKER]);
}
