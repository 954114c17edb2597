//! 5: names, codes, times and single columns.

use super::hold;
use small_sets::place::{below, first};
use small_sets::set_a;
use small_sets::File::{R, S, X};

#[test]
fn an_index_of_0() {
    let set = set_a().put(R, below(2), 26, "0");
    let expected = "\
set.r01:26:26: refused with 5: a field breaks its rule
point index, column 26: found \"0\"; needs 1 to 9, or a blank for 1
point index takes: 1 to 9, blank is 1
RL1                   1020G1     0.0   0            0.0       0.0   0.0113071245
                         ^
";
    hold("texts_an_index_of_0", &set, "REFUSED 5 R 26 26", expected);
}

#[test]
fn a_name_to_the_right() {
    let set = set_a().put(X, first(), 14, " L1");
    let expected = "\
set.x01:25:14: refused with 5: a field breaks its rule
source line name, columns 14 to 29: found \" L1             \"; must begin in the first column
source line name takes: text whose first column is not blank
X100     1111 L1                  5011   1   31L1                   101     1031
             ^
";
    hold("texts_a_name_to_the_right", &set, "REFUSED 5 X 25 14", expected);
}

#[test]
fn a_blank_name() {
    let set = set_a().put(S, first(), 2, "                ");
    let expected = "\
set.s01:25:2: refused with 5: a field breaks its rule
line name, columns 2 to 17: found \"                \"; must not be blank
line name takes: text whose first column is not blank
S                     5011V1     0.0   0            0.0       0.0   0.0113071245
 ^
";
    hold("texts_a_blank_name", &set, "REFUSED 5 S 25 2", expected);
}

#[test]
fn an_hour_of_24() {
    let set = set_a().put(S, first(), 75, "240000");
    let expected = "\
set.s01:25:75: refused with 5: a field breaks its rule
time, columns 75 to 80: found \"240000\"; hour 24 is above 23
time takes: hhmmss, 000000 to 235959, minutes and seconds below 60
SL1                   5011V1     0.0   0            0.0       0.0   0.0113240000
                                                                          ^
";
    hold("texts_an_hour_of_24", &set, "REFUSED 5 S 25 75", expected);
}

#[test]
fn a_minute_of_60() {
    let set = set_a().put(R, below(3), 75, "076000");
    let expected = "\
set.r01:27:75: refused with 5: a field breaks its rule
time, columns 75 to 80: found \"076000\"; minute 60 is above 59
time takes: hhmmss, 000000 to 235959, minutes and seconds below 60
RL1                   1031G1     0.0   0            0.0       0.0   0.0113076000
                                                                          ^
";
    hold("texts_a_minute_of_60", &set, "REFUSED 5 R 27 75", expected);
}

#[test]
fn a_time_of_five_digits() {
    let set = set_a().put(R, below(3), 75, " 71245");
    let expected = "\
set.r01:27:75: refused with 5: a field breaks its rule
time, columns 75 to 80: found \" 71245\"; needs six digits
time takes: hhmmss, 000000 to 235959, minutes and seconds below 60
RL1                   1031G1     0.0   0            0.0       0.0   0.0113 71245
                                                                          ^
";
    hold("texts_a_time_of_five_digits", &set, "REFUSED 5 R 27 75", expected);
}

#[test]
fn a_source_code_in_r() {
    let set = set_a().put(R, below(2), 27, "V1");
    let expected = "\
set.r01:26:27: refused with 5: a field breaks its rule
point code, columns 27 to 28: found \"V1\"; is a code of S and not of R
point code takes: one of these codes
G1 to G9  geophones
H1 to H9  hydrophones
R1 to R9  multi-component and other receivers
PM  permanent marker
KL  killed or omitted
RL1                   1021V1     0.0   0            0.0       0.0   0.0113071245
                          ^
";
    hold("texts_a_source_code_in_r", &set, "REFUSED 5 R 26 27", expected);
}

#[test]
fn no_code_of_s() {
    let set = set_a().put(S, first(), 27, "pm");
    let expected = "\
set.s01:25:27: refused with 5: a field breaks its rule
point code, columns 27 to 28: found \"pm\"; is no code of S
point code takes: one of these codes
V1 to V9  vibroseis
E1 to E9  explosive
A1 to A9  air gun
W1 to W9  water gun
S1 to S9  other sources
PM  permanent marker
KL  killed or omitted
SL1                   5011pm     0.0   0            0.0       0.0   0.0113071245
                          ^
";
    hold("texts_no_code_of_s", &set, "REFUSED 5 S 25 27", expected);
}

#[test]
fn a_header_type() {
    let set = set_a().put(R, 3, 2, "A2");
    let expected = "\
set.r01:3:2: refused with 5: a field breaks its rule
header type, columns 2 to 3: found \"A2\"; needs two digits
header type takes: two digits
HA2                                                                             
 ^
";
    hold("texts_a_header_type", &set, "REFUSED 5 R 3 2", expected);
}

#[test]
fn a_fourth_column() {
    let set = set_a().put(X, 5, 4, "x");
    let expected = "\
set.x01:5:4: refused with 5: a field breaks its rule
column after the header type, column 4: found \"x\"; needs a blank or a digit
column after the header type takes: a blank or a digit
H04x                                                                            
   ^
";
    hold("texts_a_fourth_column", &set, "REFUSED 5 X 5 4", expected);
}
