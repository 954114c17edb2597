//! 7 to 9, 24 and 25: headers and their tables.

use super::hold;
use crate::tape;
use small_sets::place::{below, first, header_line, last_header};
use small_sets::File::{R, S, X};
use small_sets::{header, header_with, headers_only, set_a, Line, Set};

/// Set A with lines put in below its header in all files.
fn with(lines: &[Line]) -> Set {
    set_a().each(|set, file| {
        lines.iter().rev().fold(set, |set, &line| set.insert(file, first(), line))
    })
}

#[test]
fn h021() {
    let set = set_a().each(|set, file| set.put(file, 3, 4, "1"));
    let expected = "\
set.r01:25:0: refused with 7: the header of R lacks one of the types H00 to H20
missing: H02
line 3 is H021, which does not count as H02
";
    hold("headers_h021", &set, "REFUSED 7 R 25 0", expected);
}

#[test]
fn two_types_dropped() {
    let set =
        set_a().each(|set, file| set.remove(file, header_line(20)).remove(file, header_line(7)));
    let expected = "\
set.r01:23:0: refused with 7: the header of R lacks one of the types H00 to H20
missing: H07 and H20
";
    hold("headers_two_types_dropped", &set, "REFUSED 7 R 23 0", expected);
}

#[test]
fn an_empty_r() {
    let set = Set { r: Vec::new(), ..set_a() };
    let expected = "\
set.r01:1:0: refused with 7: the header of R lacks one of the types H00 to H20
missing: H00, H01, H02, H03, H04, H05, H06, H07, H08, H09, H10, H11, H12, H13, H14, H15, H16, H17, H18, H19 and H20
";
    hold("headers_an_empty_r", &set, "REFUSED 7 R 1 0", expected);
}

#[test]
fn not_applicable() {
    let set = set_a().each(|set, file| set.put(file, header_line(18), 33, "N/A;UTM"));
    let expected = "\
set.r01:19:33: refused with 8: an H18 line names no projection
columns 33 to 80: found \"N/A;UTM\", which names no projection; needs a name, and not N/A, before any semicolon
H18                             N/A;UTM                                         
                                ^
";
    hold("headers_not_applicable", &set, "REFUSED 8 R 19 33", expected);
}

#[test]
fn nothing_before_the_semicolon() {
    let set = set_a().each(|set, file| set.put(file, header_line(18), 33, ";UTM"));
    let expected = "\
set.r01:19:33: refused with 8: an H18 line names no projection
columns 33 to 80: found \";UTM\", which names no projection; needs a name, and not N/A, before any semicolon
H18                             ;UTM                                            
                                ^
";
    hold("headers_nothing_before_the_semicolon", &set, "REFUSED 8 R 19 33", expected);
}

#[test]
fn a_blank_projection() {
    let set = tape(&set_a().each(|set, file| set.put(file, header_line(18), 33, "    ")));
    let expected = "\
set.r01:19:33: refused with 8: an H18 line names no projection
columns 33 to 80: found \"\", which names no projection; needs a name, and not N/A, before any semicolon
H18                                                                             
                                ^
";
    hold("headers_a_blank_projection", &set, "REFUSED 8 R 19 33", expected);
}

#[test]
fn another_column_in_s() {
    let set = set_a().put(S, 7, 80, "a");
    let expected = "\
set.s01:7:80: refused with 9: the header differs from that of R
column 80: found \"a\"; R has \" \"
H06                                                                            a
                                                                               ^
set.r01:7:80: the line of R
H06                                                                             
                                                                               ^
";
    hold("headers_another_column_in_s", &set, "REFUSED 9 S 7 80", expected);
}

#[test]
fn another_column_in_x() {
    let set = set_a().put(X, last_header(), 33, "E");
    let expected = "\
set.x01:24:33: refused with 9: the header differs from that of R
column 33: found \"E\"; R has \"V\"
H700                            E1                                              
                                ^
set.r01:24:33: the line of R
H700                            V1                                              
                                ^
";
    hold("headers_another_column_in_x", &set, "REFUSED 9 X 24 33", expected);
}

#[test]
fn a_shorter_header() {
    let set = set_a().remove(X, last_header());
    let expected = "\
set.x01:24:0: refused with 9: the header differs from that of R
the header of X ends after 23 lines; that of R has 24 lines
set.r01:24:1: the line of R that is lacking
H700                            V1                                              
^
";
    hold("headers_a_shorter_header", &set, "REFUSED 9 X 24 0", expected);
}

#[test]
fn a_longer_header() {
    let set = set_a().insert(S, first(), header(99));
    let expected = "\
set.s01:25:0: refused with 9: the header differs from that of R
the header of S has 25 lines; that of R ends after 24 lines
set.s01:25:1: the line that R lacks
H99                                                                             
^
";
    hold("headers_a_longer_header", &set, "REFUSED 9 S 25 0", expected);
}

#[test]
fn an_empty_s() {
    let set = Set { s: Vec::new(), ..headers_only() };
    let expected = "\
set.s01:1:0: refused with 9: the header differs from that of R
the header of S ends after 0 lines; that of R has 24 lines
set.r01:1:1: the line of R that is lacking
H00                                                                             
^
";
    hold("headers_an_empty_s", &set, "REFUSED 9 S 1 0", expected);
}

#[test]
fn a_receiver_code_again() {
    let set = with(&[header_with(620, "G2"), header_with(610, "G2")]);
    let expected = "\
set.r01:26:33: refused with 24: a code table names a code that an earlier one names
line 25, H620, names G2 before it
H610                            G2                                              
                                ^
set.r01:25:33: the line that names it first
H620                            G2                                              
                                ^
";
    hold("headers_a_receiver_code_again", &set, "REFUSED 24 R 26 33", expected);
}

#[test]
fn an_instrument_again() {
    let set = tape(&with(&[header_with(560, "1").at(36, "again")]));
    let expected = "\
set.r01:25:33: refused with 24: a code table names a code that an earlier one names
line 22, H400, names 1 before it
H560                            1, again                                        
                                ^
set.r01:22:33: the line that names it first
H400                            1,                                              
                                ^
";
    hold("headers_an_instrument_again", &set, "REFUSED 24 R 25 33", expected);
}

#[test]
fn a_receiver_code() {
    let set = set_a().put(R, below(3), 27, "G2");
    let expected = "\
set.r01:27:27: refused with 25: no code table in the header of R names this code
receiver codes are named in columns 33 and 34 of H600, H610, .. H690
found G2; the header names these receiver codes:
G1  line 23, H600
RL1                   1031G2     0.0   0            0.0       0.0   0.0113071245
                          ^
";
    hold("headers_a_receiver_code", &set, "REFUSED 25 R 27 27", expected);
}

#[test]
fn a_source_code() {
    let set = with(&[header_with(880, "S9"), header_with(600, "V2")]).put(S, below(3), 27, "V2");
    let expected = "\
set.s01:27:27: refused with 25: no code table in the header of R names this code
source codes are named in columns 33 and 34 of H700, H720, .. H880
found V2; the header names these source codes:
V1  line 24, H700
S9  line 25, H880
SL1                   5011V2     0.0   0            0.0       0.0   0.0113071245
                          ^
";
    hold("headers_a_source_code", &set, "REFUSED 25 S 27 27", expected);
}

#[test]
fn an_instrument() {
    let set = tape(&set_a().put(X, first(), 13, "2"));
    let expected = "\
set.x01:25:13: refused with 25: no code table in the header of R names this code
instruments are named by a digit in column 33 and a comma in column 34 of H400, H420, .. H560
found 2; the header names these instruments:
1  line 22, H400
X100     1112L1                   5011   1   31L1                   101     1031
            ^
";
    hold("headers_an_instrument", &set, "REFUSED 25 X 25 13", expected);
}

#[test]
fn an_instrument_of_no_table() {
    let set = with(&[header_with(580, "2"), header_with(410, "2"), header_with(700, "2")]).put(
        X,
        below(4),
        13,
        "2",
    );
    let expected = "\
set.x01:28:13: refused with 25: no code table in the header of R names this code
instruments are named by a digit in column 33 and a comma in column 34 of H400, H420, .. H560
found 2; the header names these instruments:
1  line 22, H400
X100     1112L1                   5011   1   31L1                   101     1031
            ^
";
    hold("headers_an_instrument_of_no_table", &set, "REFUSED 25 X 28 13", expected);
}

#[test]
fn a_blank_instrument() {
    let set =
        set_a().each(|set, file| set.remove(file, header_line(400))).put(X, last_header(), 13, " ");
    let expected = "\
set.x01:24:13: refused with 25: no code table in the header of R names this code
instruments are named by a digit in column 33 and a comma in column 34 of H400, H420, .. H560
found a blank, which is 1; the header names no instruments
X100     111 L1                   5011   1   31L1                   101     1031
            ^
";
    hold("headers_a_blank_instrument", &set, "REFUSED 25 X 24 13", expected);
}
