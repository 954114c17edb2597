//! What the wrapper answers, as the number that a C host gets.

use sps::Refusal;

/// The number of a refusal.
pub fn refused(Refusal { number, file, line, column }: Refusal) -> u64 {
    let file = file.map_or(0, |file| file as u64 + 1);
    (number.code() << 40) + (file << 32) + line * 256 + column
}

/// The number of a line that is written, or of a refusal.
pub fn written(answer: Result<(), Refusal>) -> u64 {
    answer.map_or_else(refused, |()| 0)
}
