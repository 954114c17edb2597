//! 3: how lines end.

use super::hold;
use small_sets::place::{below, first};
use small_sets::File::{R, X};
use small_sets::{set_a, Set};

#[test]
fn no_cr() {
    let set = set_a().byte(R, below(2), 81, b' ');
    let expected = "\
set.r01:26:81: refused with 3: column 81 is not CR
column 81: found a blank (32); needs CR (13)
Line 26 ends in LF without CR (Unix line ends)
RL1                   1021G1     0.0   0            0.0       0.0   0.0113071245 
                                                                                ^
";
    hold("lines_no_cr", &set, "REFUSED 3 R 26 81", expected);
}

#[test]
fn no_lf() {
    let set = set_a().byte(X, first(), 82, b'\r');
    let expected = "\
set.x01:25:82: refused with 3: column 82 is not LF
column 82: found CR (13); needs LF (10)
Line 25 ends in CR without LF
X100     1111L1                   5011   1   31L1                   101     1031??
                                                                                 ^
";
    hold("lines_no_lf", &set, "REFUSED 3 X 25 82", expected);
}

#[test]
fn a_line_of_81_columns() {
    let mut set = set_a().byte(R, below(2), 81, b'7');
    set.r.splice(below(2) * 82 - 1..below(2) * 82 + 1, *b"\r\n");
    let expected = "\
set.r01:26:81: refused with 3: column 81 is not CR
column 81: found \"7\" (55); needs CR (13)
Line 26 has 81 columns and not 80 before CR and LF
RL1                   1021G1     0.0   0            0.0       0.0   0.01130712457
                                                                                ^
";
    hold("lines_a_line_of_81_columns", &set, "REFUSED 3 R 26 81", expected);
}

#[test]
fn mac_line_ends() {
    let lines: Vec<u8> = set_a().s.chunks(82).flat_map(|line| &line[..81]).copied().collect();
    let set = Set { s: lines.repeat(82), ..set_a() };
    let expected = "\
set.s01:1:82: refused with 3: column 82 is not LF
column 82: found \"H\" (72); needs LF (10)
Line 1 ends in CR without LF
H00                                                                             ?H
                                                                                 ^
";
    hold("lines_mac_line_ends", &set, "REFUSED 3 S 1 82", expected);
}
