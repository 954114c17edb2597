//! The form of one file.

use crate::archive;
use crate::refusal::answer;
use crate::{File, Medium, Refusal};

/// Checks the form of one file, which needs no other: the first breach of the rules 1 to 6
/// and, on tape, 29, in the file of its kind. The kind is what the file has to be, and is not
/// taken from it, so that a file in another's place is refused.
///
/// ```
/// # let read = |name| std::fs::read(format!("../../../examples/unnamed_shot/{name}"));
/// # let (r, s) = (read("set.r01")?, read("set.s01")?);
/// use sps::{form, File, Medium::Disc};
/// assert_eq!(form(Disc, File::R, &r), Ok(()));
/// assert_eq!(form(Disc, File::S, &s), Ok(()));
/// let refusal = form(Disc, File::R, &s).unwrap_err();
/// assert_eq!(refusal.to_string(), "REFUSED 4 R 25 1");
/// # Ok::<(), std::io::Error>(())
/// ```
pub fn form(medium: Medium, kind: File, file: &[u8]) -> Result<(), Refusal> {
    answer(archive::form(medium.number(), kind.number(), file))?;
    Ok(())
}
