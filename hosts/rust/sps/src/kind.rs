//! What a code is a code of.

use crate::File;

/// The kinds of codes that the tables of a header name.
///
/// ```
/// # use sps::{Kind, Medium, Number, Set};
/// # let read = |name| std::fs::read(format!("../../../examples/code_tables/{name}"));
/// # let (r, s, x) = (read("set.r01")?, read("set.s01")?, read("set.x01")?);
/// let set = Set::new(Medium::Disc, &r, &s, &x);
/// assert_eq!(set.table_line(Kind::Instrument, b"1")?, Some(22));
/// let refusal = set.table_line(Kind::Source, b"G1").unwrap_err();
/// assert_eq!(refusal.number, Number::QuestionRange);
/// # Ok::<(), Box<dyn std::error::Error>>(())
/// ```
#[derive(Clone, Copy, Debug, PartialEq, Eq, Hash)]
pub enum Kind {
    /// The codes of R, G1 to G9, H1 to H9, R1 to R9, which H600, H610 to H690 name.
    Receiver,
    /// The codes of S, V1 to V9, E1 to E9, A1 to A9, W1 to W9, S1 to S9, which H700, H720 to
    /// H880 name.
    Source,
    /// The instruments of X, 1 to 9, which H400, H420 to H560 name.
    Instrument,
}

impl Kind {
    /// The number that the call takes: that of the file that uses the codes.
    pub(crate) fn number(self) -> u64 {
        let file = match self {
            Kind::Receiver => File::R,
            Kind::Source => File::S,
            Kind::Instrument => File::X,
        };
        file.number()
    }
}
