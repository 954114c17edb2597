//! Showing a line, without checking the set.

/// The 80 columns of a line of R or S, as a part of that file; nothing for
/// another letter, line 0, or a line beyond the file's whole lines.
pub fn show<'a>(r: &'a [u8], s: &'a [u8], letter: u8, line: usize) -> &'a [u8] {
    let file = match letter {
        b'R' => r,
        b'S' => s,
        _ => return &[],
    };
    let (lines, _) = file.as_chunks::<82>();
    match line.checked_sub(1).and_then(|above| lines.get(above)) {
        Some(whole) => &whole[..80],
        None => &[],
    }
}
