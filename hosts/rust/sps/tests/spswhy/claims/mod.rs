//! What messages claim of the lines, held to the naive reader over made sets.

mod facts;
mod fields;
mod form;
mod headers;
pub mod made;
mod points;
mod relations;

use crate::message::{Message, Row};
use crate::sentences::rare;
use made::{made, said_of};
use small_sets::File;
use std::collections::BTreeMap;

/// What a message has to say: its sentences, and the other lines with the columns to mark.
pub struct Claims {
    pub found: Vec<String>,
    pub others: Vec<(File, u32, u8)>,
}

impl Claims {
    fn of(found: impl IntoIterator<Item = String>) -> Claims {
        Claims { found: found.into_iter().collect(), others: Vec::new() }
    }

    fn beside(mut self, file: File, line: u32, column: u8) -> Claims {
        self.others.push((file, line, column));
        self
    }
}

/// A number, and what its messages have to say.
type Rule = (u8, fn(&made::Refused) -> Claims);

const RULES: [Rule; 18] = [
    (4, form::letter),
    (6, form::channels),
    (7, headers::types),
    (8, headers::projection),
    (9, headers::differs),
    (10, points::order),
    (11, points::earlier),
    (12, points::repeated),
    (13, relations::no_shot),
    (14, relations::order),
    (15, relations::not_named),
    (16, relations::record),
    (17, relations::channels),
    (18, relations::no_receiver),
    (19, relations::covered),
    (24, headers::named_twice),
    (25, headers::not_named),
    (29, form::end),
];

/// A number whose sentences are held one by one.
type Sentences = (u8, fn(&made::Refused, &Message));

const SENTENCES: [Sentences; 4] =
    [(1, form::length), (2, form::lines), (3, form::byte), (5, fields::field)];

#[test]
fn of_made_sets() {
    let rows = Row::all();
    let refused: Vec<made::Refused> = made().into_iter().chain(rare()).collect();
    let mut turns = BTreeMap::new();
    for (refused, said) in refused.iter().zip(said_of("claims", &refused)) {
        let (message, path, line, column) = Message::read(&said);
        assert_eq!((message.number, line, column), (refused.number, refused.line, refused.column));
        assert!(path.ends_with(refused.name()), "{said}");
        Row::of_message(&rows, &message).hold(&message);
        *turns.entry(message.number).or_insert(0) += 1;
        if let Some((_, hold)) = SENTENCES.iter().find(|rule| rule.0 == message.number) {
            hold(refused, &message);
            continue;
        }
        let rule = RULES.iter().find(|rule| rule.0 == message.number).expect("a rule");
        let claims = rule.1(refused);
        assert_eq!(message.found, claims.found, "{said}");
        let others: Vec<_> =
            message.others.iter().map(|of| (&*of.path, of.line, of.column)).collect();
        let folder = path.strip_suffix(refused.name()).expect("a folder");
        let expected = claims.others.iter().map(|of| (made::name(of.0), of.1, of.2));
        let others =
            others.iter().map(|of| (of.0.strip_prefix(folder).expect("a folder"), of.1, of.2));
        assert!(others.eq(expected), "{said}");
    }
    let numbers = RULES.map(|rule| rule.0).into_iter().chain(SENTENCES.map(|rule| rule.0));
    for number in numbers {
        let (turns, least) = (turns.get(&number).copied(), if number == 2 { 1 } else { 5 });
        assert!(turns >= Some(least), "{turns:?} sets are refused with {number}");
    }
}
