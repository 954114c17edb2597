//! What files are written on.

/// What the files are written on; the caller names it. A refusal has the same form for both,
/// and a question is asked in ASCII of both.
///
/// ```
/// # use sps::{Medium, Set};
/// # let read = |name| std::fs::read(format!("../../../examples/set_a/{name}"));
/// # let (r, s, x) = (read("set.r01")?, read("set.s01")?, read("set.x01")?);
/// assert!(Set::new(Medium::Disc, &r, &s, &x).cross().is_ok());
/// let refusal = Set::new(Medium::Tape, &r, &s, &x).cross().unwrap_err();
/// assert_eq!(refusal.to_string(), "REFUSED 1 R 28 0");
/// # Ok::<(), std::io::Error>(())
/// ```
#[derive(Clone, Copy, Debug, PartialEq, Eq, Hash)]
pub enum Medium {
    /// Lines of 80 columns, CR and LF.
    Disc,
    /// Records of 80 bytes in code page 037 (EBCDIC), ended by one with EOF in its first
    /// three columns.
    Tape,
}

impl Medium {
    /// The number that the calls take.
    pub(crate) fn number(self) -> u64 {
        match self {
            Medium::Disc => 1,
            Medium::Tape => 2,
        }
    }
}
