//! 1, 2 and 29: lengths and ends.

use super::hold;
use crate::tape;
use small_sets::place::{below, first};
use small_sets::{receiver, set_a, File, Line, Medium, Set};
use File::{R, S, X};

/// Set A with other bytes for a file.
fn bytes(file: File, change: impl FnOnce(Vec<u8>) -> Vec<u8>) -> Set {
    let mut set = set_a();
    let bytes = set.file_mut(file);
    *bytes = change(std::mem::take(bytes));
    set
}

/// Lines without their last blanks, ended by some bytes.
fn cut(file: Vec<u8>, end: &[u8]) -> Vec<u8> {
    let lines = file.chunks_exact(82);
    lines.flat_map(|line| [line[..80].trim_ascii_end(), end].concat()).collect()
}

#[test]
fn unix_line_ends() {
    let set = bytes(S, |file| file.into_iter().filter(|byte| *byte != 13).collect());
    let expected = "\
set.s01:25:0: refused with 1: the length of the file is no multiple of 82 bytes, a line of 80 columns, CR and LF
2,025 bytes are 24 lines of 82 and 57 more. Line 1 ends in LF without CR (Unix line ends)
";
    hold("lengths_unix_line_ends", &set, "REFUSED 1 S 25 0", expected);
}

#[test]
fn unix_line_ends_and_cut_blanks() {
    let set = bytes(S, |file| cut(file, b"\n"));
    let expected = "\
set.s01:4:0: refused with 1: the length of the file is no multiple of 82 bytes, a line of 80 columns, CR and LF
303 bytes are 3 lines of 82 and 57 more. Line 1 ends in LF without CR (Unix line ends)
";
    hold("lengths_unix_line_ends_and_cut_blanks", &set, "REFUSED 1 S 4 0", expected);
}

#[test]
fn cut_blanks() {
    let set = bytes(R, |file| cut(file, b"\r\n"));
    let expected = "\
set.r01:1:4: refused with 3: a byte is none of those that columns 1 to 80 take
column 4: found CR (13); columns 1 to 80 take bytes 32 to 126
Line 1 has 3 columns and not 80 before CR and LF (trailing blanks may be cut)
H00??H01??H02??H03??H04??H05??H06??H07??H08??H09??H10??H11??H12??H13??H14??H15??
   ^
";
    hold("lengths_cut_blanks", &set, "REFUSED 3 R 1 4", expected);
}

#[test]
fn cut_blanks_of_s() {
    let set = bytes(S, |file| cut(file[82..].to_vec(), b"\r\n"));
    let expected = "\
set.s01:4:0: refused with 1: the length of the file is no multiple of 82 bytes, a line of 80 columns, CR and LF
323 bytes are 3 lines of 82 and 77 more. Line 1 has 3 columns and not 80 before CR and LF (trailing blanks may be cut)
";
    hold("lengths_cut_blanks_of_s", &set, "REFUSED 1 S 4 0", expected);
}

#[test]
fn a_line_of_79_columns() {
    let set = bytes(R, |mut file| {
        file.remove(24 * 82 + 20);
        file
    });
    let expected = "\
set.r01:27:0: refused with 1: the length of the file is no multiple of 82 bytes, a line of 80 columns, CR and LF
2,213 bytes are 26 lines of 82 and 81 more. Line 25 has 79 columns and not 80 before CR and LF (trailing blanks may be cut)
";
    hold("lengths_a_line_of_79_columns", &set, "REFUSED 1 R 27 0", expected);
}

#[test]
fn mac_line_ends() {
    let set = bytes(X, |file| file.into_iter().filter(|byte| *byte != 10).collect());
    let expected = "\
set.x01:25:0: refused with 1: the length of the file is no multiple of 82 bytes, a line of 80 columns, CR and LF
2,025 bytes are 24 lines of 82 and 57 more. Line 1 ends in CR without LF
";
    hold("lengths_mac_line_ends", &set, "REFUSED 1 X 25 0", expected);
}

#[test]
fn a_utf_8_mark() {
    let set = bytes(R, |file| [&b"\xEF\xBB\xBF"[..], &file].concat());
    let expected = "\
set.r01:28:0: refused with 1: the length of the file is no multiple of 82 bytes, a line of 80 columns, CR and LF
2,217 bytes are 27 lines of 82 and 3 more. The file starts with a UTF-8 mark, 3 bytes that must go
";
    hold("lengths_a_utf_8_mark", &set, "REFUSED 1 R 28 0", expected);
}

#[test]
fn ctrl_z() {
    let set = bytes(X, |file| [&file[..], &[26]].concat());
    let expected = "\
set.x01:26:0: refused with 1: the length of the file is no multiple of 82 bytes, a line of 80 columns, CR and LF
2,051 bytes are 25 lines of 82 and 1 more. The last byte is Ctrl-Z (26), which must go
";
    hold("lengths_ctrl_z", &set, "REFUSED 1 X 26 0", expected);
}

#[test]
fn a_gzip_file() {
    let set = bytes(R, |_| b"\x1F\x8B\x08\x00".repeat(100));
    let expected = "\
set.r01:5:0: refused with 1: the length of the file is no multiple of 82 bytes, a line of 80 columns, CR and LF
400 bytes are 4 lines of 82 and 72 more. The file is compressed (gzip): unpack it
";
    hold("lengths_a_gzip_file", &set, "REFUSED 1 R 5 0", expected);
}

#[test]
fn no_last_line_end() {
    let set = set_a().cut(R, first() * 82 - 2);
    let expected = "\
set.r01:25:0: refused with 1: the length of the file is no multiple of 82 bytes, a line of 80 columns, CR and LF
2,048 bytes are 24 lines of 82 and 80 more. Line 25, the last, has 80 columns and no CR and LF
";
    hold("lengths_no_last_line_end", &set, "REFUSED 1 R 25 0", expected);
}

#[test]
fn a_byte_less() {
    let set = set_a().cut(R, 81);
    let expected = "\
set.r01:1:0: refused with 1: the length of the file is no multiple of 82 bytes, a line of 80 columns, CR and LF
81 bytes are 0 lines of 82 and 81 more. Line 1 ends in CR without LF
";
    hold("lengths_a_byte_less", &set, "REFUSED 1 R 1 0", expected);
}

#[test]
fn a_line_of_81_columns() {
    let set = bytes(R, |mut file| {
        file.insert(100, b' ');
        file
    });
    let expected = "\
set.r01:28:0: refused with 1: the length of the file is no multiple of 82 bytes, a line of 80 columns, CR and LF
2,215 bytes are 27 lines of 82 and 1 more. Line 2 has 81 columns and not 80 before CR and LF
";
    hold("lengths_a_line_of_81_columns", &set, "REFUSED 1 R 28 0", expected);
}

#[test]
fn a_tape_that_is_cut() {
    let set = tape(&set_a()).cut(S, 79);
    let expected = "\
set.s01:1:0: refused with 1: the length of the tape is no multiple of 80 bytes, a record
79 bytes are 0 records of 80 and 79 more
";
    hold("lengths_a_tape_that_is_cut", &set, "REFUSED 1 S 1 0", expected);
}

#[test]
fn a_tape_on_disc() {
    let set = Set { medium: Medium::Disc, ..tape(&set_a()) };
    let expected = "\
set.r01:28:0: refused with 1: the length of the file is no multiple of 82 bytes, a line of 80 columns, CR and LF
2,240 bytes are 27 lines of 82 and 26 more
each of set.r01, set.s01, set.x01 looks like a tape, which --tape judges
";
    hold("lengths_a_tape_on_disc", &set, "REFUSED 1 R 28 0", expected);
}

#[test]
fn a_disc_file_on_tape() {
    let set = Set { medium: Medium::Tape, ..set_a() };
    let expected = "\
set.r01:28:0: refused with 1: the length of the tape is no multiple of 80 bytes, a record
2,214 bytes are 27 records of 80 and 54 more
each of set.r01, set.s01, set.x01 looks like a disc file, which is judged without --tape
";
    hold("lengths_a_disc_file_on_tape", &set, "REFUSED 1 R 28 0", expected);
}

#[test]
fn ten_thousand_lines() {
    let set = set_a().add_all(R, (104..).map(receiver).take(10_000 - below(3)));
    let expected = "\
set.r01:10000:0: refused with 2: the file has more than 9,999 lines
10,000 lines; at most 9,999 are taken
";
    hold("lengths_ten_thousand_lines", &set, "REFUSED 2 R 10000 0", expected);
}

#[test]
fn ten_thousand_records() {
    let set = tape(&set_a().add_all(R, (104..).map(receiver).take(10_000 - below(3))));
    let expected = "\
set.r01:10000:0: refused with 2: the file has more than 9,999 lines
10,001 records, the EOF record among them; at most 9,999 are taken
";
    hold("lengths_ten_thousand_records", &set, "REFUSED 2 R 10000 0", expected);
}

#[test]
fn no_eof() {
    let set = tape(&set_a()).remove(X, below(2));
    let expected = "\
set.x01:26:0: refused with 29: no EOF record ends the tape
25 records, none with EOF in columns 1 to 3; needs one
";
    hold("lengths_no_eof", &set, "REFUSED 29 X 26 0", expected);
}

#[test]
fn an_empty_tape() {
    let set = Set { medium: Medium::Tape, ..Set::default() };
    let expected = "\
set.r01:1:0: refused with 29: no EOF record ends the tape
0 records, none with EOF in columns 1 to 3; needs one
";
    hold("lengths_an_empty_tape", &set, "REFUSED 29 R 1 0", expected);
}

#[test]
fn records_behind_eof() {
    let set = tape(&set_a()).add(S, Line([0x40; 80])).add(S, Line([0x40; 80]));
    let expected = "\
set.s01:27:0: refused with 29: records follow the EOF record
record 26 has EOF in columns 1 to 3 and must be the last; behind it: 2 records
set.s01:26:1: the EOF record
EOF                                                                             
^
";
    hold("lengths_records_behind_eof", &set, "REFUSED 29 S 27 0", expected);
}
