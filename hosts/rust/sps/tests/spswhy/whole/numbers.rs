//! 5: numbers.

use super::hold;
use crate::tape;
use small_sets::place::{below, first};
use small_sets::set_a;
use small_sets::File::{R, S, X};

#[test]
fn two_digits_after_the_point() {
    let set = set_a().put(R, below(2), 33, "1.25");
    let expected = "\
set.r01:26:33: refused with 5: a field breaks its rule
depth, columns 33 to 36: found \"1.25\"; needs exactly one digit after the point
depth takes: decimal, 0.0 to 99.9, or tenths 0 to 999 without a point
RL1                   1021G1    1.25   0            0.0       0.0   0.0113071245
                                ^
";
    hold("numbers_two_digits_after_the_point", &set, "REFUSED 5 R 26 33", expected);
}

#[test]
fn not_in_the_last_column() {
    let set = set_a().put(R, below(2), 18, "102     ");
    let expected = "\
set.r01:26:18: refused with 5: a field breaks its rule
point number, columns 18 to 25: found \"102     \"; must end in the last column
point number takes: whole number, 0 to 99999999
RL1              102     1G1     0.0   0            0.0       0.0   0.0113071245
                 ^
";
    hold("numbers_not_in_the_last_column", &set, "REFUSED 5 R 26 18", expected);
}

#[test]
fn a_blank_easting() {
    let set = set_a().put(S, first(), 47, "         ");
    let expected = "\
set.s01:25:47: refused with 5: a field breaks its rule
easting, columns 47 to 55: found \"         \"; must not be blank
easting takes: decimal, or tenths without a point
SL1                   5011V1     0.0   0                      0.0   0.0113071245
                                              ^
";
    hold("numbers_a_blank_easting", &set, "REFUSED 5 S 25 47", expected);
}

#[test]
fn a_depth_above() {
    let set = set_a().put(R, below(2), 33, "1000");
    let expected = "\
set.r01:26:33: refused with 5: a field breaks its rule
depth, columns 33 to 36: found \"1000\"; without a point it counts tenths, and 100.0 is above 99.9
depth takes: decimal, 0.0 to 99.9, or tenths 0 to 999 without a point
RL1                   1021G1    1000   0            0.0       0.0   0.0113071245
                                ^
";
    hold("numbers_a_depth_above", &set, "REFUSED 5 R 26 33", expected);
}

#[test]
fn a_water_depth_above() {
    let set = set_a().put(R, below(2), 43, "1000");
    let expected = "\
set.r01:26:43: refused with 5: a field breaks its rule
water depth, columns 43 to 46: found \"1000\"; 1000 is above 999
water depth takes: 0.0 to 99.9, or whole metres 0 to 999, may be blank
RL1                   1021G1     0.0   0  1000      0.0       0.0   0.0113071245
                                          ^
";
    hold("numbers_a_water_depth_above", &set, "REFUSED 5 R 26 43", expected);
}

#[test]
fn a_day_below() {
    let set = set_a().put(S, first(), 72, "  0");
    let expected = "\
set.s01:25:72: refused with 5: a field breaks its rule
day, columns 72 to 74: found \"  0\"; 0 is below 1
day takes: whole number, 1 to 999
SL1                   5011V1     0.0   0            0.0       0.0   0.0  0071245
                                                                       ^
";
    hold("numbers_a_day_below", &set, "REFUSED 5 S 25 72", expected);
}

#[test]
fn an_elevation_below() {
    let set = set_a().put(R, first(), 66, "-10000");
    let expected = "\
set.r01:25:66: refused with 5: a field breaks its rule
elevation, columns 66 to 71: found \"-10000\"; without a point it counts tenths, and -1000.0 is below -999.9
elevation takes: decimal, -999.9 to 9999.9, or tenths -9999 to 99999 without a point
RL1                   1011G1     0.0   0            0.0       0.0-10000113071245
                                                                 ^
";
    hold("numbers_an_elevation_below", &set, "REFUSED 5 R 25 66", expected);
}

#[test]
fn a_plus_sign() {
    let set = set_a().put(R, first(), 56, "      +5.0");
    let expected = "\
set.r01:25:56: refused with 5: a field breaks its rule
northing, columns 56 to 65: found \"      +5.0\"; takes no plus sign
northing takes: decimal, or tenths without a point
RL1                   1011G1     0.0   0            0.0      +5.0   0.0113071245
                                                       ^
";
    hold("numbers_a_plus_sign", &set, "REFUSED 5 R 25 56", expected);
}

#[test]
fn a_minus() {
    let set = set_a().put(X, first(), 30, "    -501");
    let expected = "\
set.x01:25:30: refused with 5: a field breaks its rule
source point, columns 30 to 37: found \"    -501\"; takes no minus
source point takes: whole number, 0 to 99999999
X100     1111L1                  -5011   1   31L1                   101     1031
                             ^
";
    hold("numbers_a_minus", &set, "REFUSED 5 X 25 30", expected);
}

#[test]
fn a_blank_inside() {
    let set = set_a().put(X, first(), 64, "    1 01");
    let expected = "\
set.x01:25:64: refused with 5: a field breaks its rule
from receiver, columns 64 to 71: found \"    1 01\"; takes no blank inside
from receiver takes: whole number, 0 to 99999999
X100     1111L1                   5011   1   31L1                  1 01     1031
                                                               ^
";
    hold("numbers_a_blank_inside", &set, "REFUSED 5 X 25 64", expected);
}

#[test]
fn a_letter() {
    let set = set_a().put(X, first(), 8, "  1O");
    let expected = "\
set.x01:25:8: refused with 5: a field breaks its rule
field record, columns 8 to 11: found \"  1O\"; \"O\" is no digit
field record takes: whole number, 0 to 9999
X100     1O11L1                   5011   1   31L1                   101     1031
       ^
";
    hold("numbers_a_letter", &set, "REFUSED 5 X 25 8", expected);
}

#[test]
fn no_digit() {
    let set = set_a().put(S, first(), 37, "   -");
    let expected = "\
set.s01:25:37: refused with 5: a field breaks its rule
seismic datum, columns 37 to 40: found \"   -\"; has no digit
seismic datum takes: whole number, -999 to 9999
SL1                   5011V1     0.0   -            0.0       0.0   0.0113071245
                                    ^
";
    hold("numbers_no_digit", &set, "REFUSED 5 S 25 37", expected);
}

#[test]
fn a_point() {
    let set = set_a().put(S, first(), 41, ".5");
    let expected = "\
set.s01:25:41: refused with 5: a field breaks its rule
uphole, columns 41 to 42: found \".5\"; takes no point
uphole takes: whole number, 0 to 99, may be blank
SL1                   5011V1     0.0   0.5          0.0       0.0   0.0113071245
                                        ^
";
    hold("numbers_a_point", &set, "REFUSED 5 S 25 41", expected);
}

#[test]
fn nothing_before_the_point() {
    let set = set_a().put(S, first(), 66, "    .5");
    let expected = "\
set.s01:25:66: refused with 5: a field breaks its rule
elevation, columns 66 to 71: found \"    .5\"; needs a digit before the point
elevation takes: decimal, -999.9 to 9999.9, or tenths -9999 to 99999 without a point
SL1                   5011V1     0.0   0            0.0       0.0    .5113071245
                                                                 ^
";
    hold("numbers_nothing_before_the_point", &set, "REFUSED 5 S 25 66", expected);
}

#[test]
fn two_points() {
    let set = set_a().put(S, first(), 66, "  1..5");
    let expected = "\
set.s01:25:66: refused with 5: a field breaks its rule
elevation, columns 66 to 71: found \"  1..5\"; needs exactly one digit after the point
elevation takes: decimal, -999.9 to 9999.9, or tenths -9999 to 99999 without a point
SL1                   5011V1     0.0   0            0.0       0.0  1..5113071245
                                                                 ^
";
    hold("numbers_two_points", &set, "REFUSED 5 S 25 66", expected);
}

#[test]
fn a_water_depth_with_two_digits() {
    let set = set_a().put(R, below(3), 43, "1.25");
    let expected = "\
set.r01:27:43: refused with 5: a field breaks its rule
water depth, columns 43 to 46: found \"1.25\"; needs exactly one digit after the point
water depth takes: 0.0 to 99.9, or whole metres 0 to 999, may be blank
RL1                   1031G1     0.0   0  1.25      0.0       0.0   0.0113071245
                                          ^
";
    hold("numbers_a_water_depth_with_two_digits", &set, "REFUSED 5 R 27 43", expected);
}

#[test]
fn a_channel_of_0_on_tape() {
    let set = tape(&set_a().put(X, first(), 39, "   0"));
    let expected = "\
set.x01:25:39: refused with 5: a field breaks its rule
from channel, columns 39 to 42: found \"   0\"; 0 is below 1
from channel takes: whole number, 1 to 9999
X100     1111L1                   5011   0   31L1                   101     1031
                                      ^
";
    hold("numbers_a_channel_of_0_on_tape", &set, "REFUSED 5 X 25 39", expected);
}
