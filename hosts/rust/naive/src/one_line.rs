//! One line of a file, by itself: 20 where it does not stand there, then 3 to 6 of it.

use crate::lines::{columns, is_header, line_at};
use crate::{placeless, Fault, File, Line, Medium, Refusal};

/// Reads a line that is no header line; other lines are not looked at.
pub fn read<T>(
    medium: Medium,
    file: File,
    bytes: &[u8],
    line: u64,
    read: impl Fn(&Line) -> Result<T, Fault>,
) -> Result<T, Refusal> {
    let own = line_at(medium, bytes, line).filter(|whole| !is_header(medium, whole));
    let whole = own.ok_or(placeless(20))?;
    let data = columns(medium, whole).and_then(|columns| {
        if columns[0] == file.letter() {
            read(&columns)
        } else {
            Err(Fault { number: 4, column: 1 })
        }
    });
    data.map_err(|fault| fault.at(file, line as u32))
}
