//! Values for the writer: those that a line has, those with one field at its borders, wrong
//! ones with the field that is wrong, and numbers of any size.

mod merged;
mod points;
mod relations;
mod rules;

use crate::fields;
pub use merged::{merged, SetValues};
use rules::any_number;
pub use rules::Rule;
use small_sets::Random;

/// Legal values but for one field, which may be wrong.
#[derive(Clone, Copy, Debug)]
pub struct Case<V> {
    pub values: V,
    /// The field by its name in the paper.
    pub field: &'static str,
    /// Whether a line has these values.
    pub legal: bool,
}

/// A number: its name, its rule, and what puts it there. Numbers that 6 holds to it move along.
pub type NumberField<V> = (&'static str, Rule, fn(&mut V, i64));

/// A name or a tape: its name, and its bytes.
pub type NameField<V> = (&'static str, fn(&mut V) -> &mut [u8]);

/// A way to make legal values wrong that is neither a number's nor a name's.
pub type Spoil<V> = (&'static str, fn(&mut Random, &mut V));

/// The values of a point or of a relation.
pub trait Values: Copy + 'static {
    const NUMBERS: &'static [NumberField<Self>];
    const NAMES: &'static [NameField<Self>];
    const SPOILS: &'static [Spoil<Self>];

    /// Values that a line has.
    fn legal(random: &mut Random) -> Self;

    /// Such values with as little in them as can be.
    fn least(random: &mut Random) -> Self;

    /// Whether the fields that hang together agree, each within its own rule.
    fn agree(&self) -> bool;
}

/// Each number at the borders of its rule, of its columns and of the bytes that may hold it, and
/// each column of a name at those of the bytes that it takes; within them and beyond.
pub fn at_borders<V: Values>(random: &mut Random) -> Vec<Case<V>> {
    let mut cases = Vec::new();
    for &(field, rule, put) in V::NUMBERS {
        for number in rule.borders() {
            for mut values in [V::least(random), V::legal(random)] {
                put(&mut values, number);
                let legal = rule.takes(number) && values.agree();
                cases.push(Case { values, field, legal });
            }
        }
    }
    for &(field, name) in V::NAMES {
        let mut values = V::legal(random);
        for column in 0..name(&mut values).len() {
            for byte in [0, 31, 32, 33, 126, 127, 128, 255] {
                let mut values = values;
                name(&mut values)[column] = byte;
                let legal = (32..=126).contains(&byte) && (column > 0 || byte != b' ');
                cases.push(Case { values, field, legal });
            }
        }
    }
    cases
}

/// Values that no line has: legal ones but for the field that is named, and for numbers that
/// moved along with it.
pub fn wrong<V: Values>(random: &mut Random) -> (V, &'static str) {
    let mut values = V::legal(random);
    let (numbers, names) = (V::NUMBERS.len(), V::NAMES.len());
    let field = match random.below(numbers + names + V::SPOILS.len()) {
        at if at < numbers => {
            let (field, rule, put) = V::NUMBERS[at];
            put(&mut values, rule.beyond(random));
            field
        }
        at if at < numbers + names => {
            let (field, name) = V::NAMES[at - numbers];
            spoil(random, name(&mut values));
            field
        }
        at => {
            let (field, change) = V::SPOILS[at - numbers - names];
            change(random, &mut values);
            field
        }
    };
    (values, field)
}

/// Legal values but for up to three numbers of any size, some of which a line has, and at times
/// for a byte of a name.
pub fn wide<V: Values>(random: &mut Random) -> V {
    let mut values = V::legal(random);
    for _ in 0..1 + random.below(3) {
        let (_, _, put) = random.pick(V::NUMBERS);
        put(&mut values, any_number(random));
    }
    if random.below(8) == 0 {
        let (_, name) = random.pick(V::NAMES);
        let name = name(&mut values);
        name[random.below(name.len())] = random.bytes(1)[0];
    }
    values
}

/// A blank in the first column, or a byte that no line has in any of them.
fn spoil(random: &mut Random, name: &mut [u8]) {
    match random.below(3) {
        0 => name[0] = b' ',
        _ => name[random.below(name.len())] = random.pick(b"\0\t\n\r\x1f\x7f\x80\xa0\xc1\xff"),
    }
}

/// A name or a tape that a line has.
fn name<const N: usize>(random: &mut Random) -> [u8; N] {
    let name = fields::name(random, N);
    std::array::from_fn(|at| name.as_bytes()[at])
}
