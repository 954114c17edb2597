//! The table in sections, a file each.

mod answers;
pub mod backwards;
pub mod code_tables;
mod covers;
pub mod decimals;
mod files;
mod forms;
mod headers;
pub mod killed;
mod markers;
mod order;
mod pairs_of_form;
mod pairs_of_set;
pub mod paper;
mod points;
mod questions;
mod records;
mod relations;
pub mod tapes;
pub mod write;

use crate::Case;

/// A name, and what gives the cases.
pub type Section = (&'static str, fn() -> Vec<Case>);

pub const SECTIONS: [Section; 19] = [
    ("paper", paper::cases),
    ("files", files::cases),
    ("headers", headers::cases),
    ("points", points::cases),
    ("decimals", decimals::cases),
    ("markers", markers::cases),
    ("relations", relations::cases),
    ("order", order::cases),
    ("records", records::cases),
    ("covers", covers::cases),
    ("backwards", backwards::cases),
    ("code_tables", code_tables::cases),
    ("killed", killed::cases),
    ("questions", questions::cases),
    ("pairs_of_form", pairs_of_form::cases),
    ("pairs_of_set", pairs_of_set::cases),
    ("answers", answers::cases),
    ("tapes", tapes::cases),
    ("forms", forms::cases),
];

/// All sections, one after another.
pub fn table() -> Vec<Case> {
    SECTIONS.iter().flat_map(|(_, cases)| cases()).collect()
}
