//! 3, 4 and 6: bytes, letters, channels.

use super::hold;
use crate::tape;
use small_sets::place::{below, first};
use small_sets::File::{R, S, X};
use small_sets::{header, set_a, shot, Set};

#[test]
fn a_tab() {
    let set = set_a().byte(R, below(2), 5, 9);
    let expected = "\
set.r01:26:5: refused with 3: a byte is none of those that columns 1 to 80 take
column 5: found TAB (9); columns 1 to 80 take bytes 32 to 126
RL1 ?                 1021G1     0.0   0            0.0       0.0   0.0113071245
    ^
";
    hold("lines_a_tab", &set, "REFUSED 3 R 26 5", expected);
}

#[test]
fn a_byte_above_127() {
    let set = set_a().byte(S, first(), 3, 0xFC);
    let expected = "\
set.s01:25:3: refused with 3: a byte is none of those that columns 1 to 80 take
column 3: found 0xFC; columns 1 to 80 take bytes 32 to 126
SL?                   5011V1     0.0   0            0.0       0.0   0.0113071245
  ^
";
    hold("lines_a_byte_above_127", &set, "REFUSED 3 S 25 3", expected);
}

#[test]
fn a_del() {
    let set = set_a().byte(S, first(), 80, 127);
    let expected = "\
set.s01:25:80: refused with 3: a byte is none of those that columns 1 to 80 take
column 80: found DEL (127); columns 1 to 80 take bytes 32 to 126
SL1                   5011V1     0.0   0            0.0       0.0   0.011307124?
                                                                               ^
";
    hold("lines_a_del", &set, "REFUSED 3 S 25 80", expected);
}

#[test]
fn a_line_feed() {
    let set = set_a().byte(R, 1, 80, b'\n');
    let expected = "\
set.r01:1:80: refused with 3: a byte is none of those that columns 1 to 80 take
column 80: found LF (10); columns 1 to 80 take bytes 32 to 126
Line 1 ends in LF without CR (Unix line ends)
H00                                                                            ?
                                                                               ^
";
    hold("lines_a_line_feed", &set, "REFUSED 3 R 1 80", expected);
}

#[test]
fn an_exclamation_mark_on_tape() {
    let set = tape(&set_a()).byte(R, below(2), 5, 0x5A);
    let expected = "\
set.r01:26:5: refused with 3: a byte is none of those that columns 1 to 80 take
column 5: found 0x5A; taken are, in code page 037, a blank, letters, digits and . , ; : ( ) - + / & ' % * = ? _ < >
RL1 ?                 1021G1     0.0   0            0.0       0.0   0.0113071245
    ^
";
    hold("lines_an_exclamation_mark_on_tape", &set, "REFUSED 3 R 26 5", expected);
}

#[test]
fn files_exchanged() {
    let set = Set { r: set_a().s, s: set_a().r, ..set_a() };
    let expected = "\
set.r01:25:1: refused with 4: column 1 is neither H nor the letter of the file
column 1: found \"S\"; needs H or R
this looks like an S file
below their headers the files begin with S, R and X; needed are R, S and X, in this order
SL1                   5011V1     0.0   0            0.0       0.0   0.0113071245
^
";
    hold("lines_files_exchanged", &set, "REFUSED 4 R 25 1", expected);
}

#[test]
fn files_turned() {
    let set = Set { r: set_a().x, s: set_a().r, x: set_a().s, ..set_a() };
    let expected = "\
set.r01:25:1: refused with 4: column 1 is neither H nor the letter of the file
column 1: found \"X\"; needs H or R
this looks like an X file
below their headers the files begin with X, R and S; needed are R, S and X, in this order
X100     1111L1                   5011   1   31L1                   101     1031
^
";
    hold("lines_files_turned", &set, "REFUSED 4 R 25 1", expected);
}

#[test]
fn one_file_twice() {
    let set = Set { x: set_a().r, ..set_a() };
    let expected = "\
set.x01:25:1: refused with 4: column 1 is neither H nor the letter of the file
column 1: found \"R\"; needs H or X
this looks like an R file
below their headers the files begin with R, S and R; needed are R, S and X, in this order
RL1                   1011G1     0.0   0            0.0       0.0   0.0113071245
^
";
    hold("lines_one_file_twice", &set, "REFUSED 4 X 25 1", expected);
}

#[test]
fn files_exchanged_on_tape() {
    let set = set_a().remove(S, first());
    let set = tape(&Set { r: set.x.clone(), x: set_a().s, ..set });
    let expected = "\
set.r01:25:1: refused with 4: column 1 is neither H nor the letter of the file
column 1: found \"X\"; needs H or R
this looks like an X file
below their headers the files begin with X, nothing and S; needed are R, S and X, in this order
X100     1111L1                   5011   1   31L1                   101     1031
^
";
    hold("lines_files_exchanged_on_tape", &set, "REFUSED 4 R 25 1", expected);
}

#[test]
fn the_first_letter_alone() {
    let set = set_a().put(R, first(), 1, "S");
    let expected = "\
set.r01:25:1: refused with 4: column 1 is neither H nor the letter of the file
column 1: found \"S\"; needs H or R
SL1                   1011G1     0.0   0            0.0       0.0   0.0113071245
^
";
    hold("lines_the_first_letter_alone", &set, "REFUSED 4 R 25 1", expected);
}

#[test]
fn another_letter() {
    let set = set_a().put(R, below(2), 1, "S");
    let expected = "\
set.r01:26:1: refused with 4: column 1 is neither H nor the letter of the file
column 1: found \"S\"; needs R
SL1                   1021G1     0.0   0            0.0       0.0   0.0113071245
^
";
    hold("lines_another_letter", &set, "REFUSED 4 R 26 1", expected);
}

#[test]
fn a_small_letter() {
    let set = set_a().put(S, first(), 1, "s");
    let expected = "\
set.s01:25:1: refused with 4: column 1 is neither H nor the letter of the file
column 1: found \"s\"; needs H or S
sL1                   5011V1     0.0   0            0.0       0.0   0.0113071245
^
";
    hold("lines_a_small_letter", &set, "REFUSED 4 S 25 1", expected);
}

#[test]
fn a_header_line_below() {
    let set = set_a().add(S, header(20)).add(S, shot(502));
    let expected = "\
set.s01:26:1: refused with 4: a header line stands below data
column 1: found \"H\"; below line 25 needs S
H20                                                                             
^
set.s01:25:1: the first line that is no header line
SL1                   5011V1     0.0   0            0.0       0.0   0.0113071245
^
";
    hold("lines_a_header_line_below", &set, "REFUSED 4 S 26 1", expected);
}

#[test]
fn a_header_line_below_on_tape() {
    let set = tape(&set_a().put(R, below(3), 1, "H20"));
    let expected = "\
set.r01:27:1: refused with 4: a header line stands below data
column 1: found \"H\"; below line 25 needs R
H20                   1031G1     0.0   0            0.0       0.0   0.0113071245
^
set.r01:25:1: the first line that is no header line
RL1                   1011G1     0.0   0            0.0       0.0   0.0113071245
^
";
    hold("lines_a_header_line_below_on_tape", &set, "REFUSED 4 R 27 1", expected);
}

#[test]
fn channels_crossed() {
    let set = set_a().edit(X, first(), |x| x.channels(3, 1));
    let expected = "\
set.x01:25:39: refused with 6: the from channel is above the to channel
channels 3 to 1: 3 is above 1
X100     1111L1                   5011   3   11L1                   101     1031
                                      ^
";
    hold("lines_channels_crossed", &set, "REFUSED 6 X 25 39", expected);
}

#[test]
fn no_multiple() {
    let set = set_a().edit(X, first(), |x| x.increment("2"));
    let expected = "\
set.x01:25:47: refused with 6: the channels are no multiple of the channel increment
channels 1 to 3 are 3, which is no multiple of 2
X100     1111L1                   5011   1   32L1                   101     1031
                                              ^
";
    hold("lines_no_multiple", &set, "REFUSED 6 X 25 47", expected);
}

#[test]
fn other_receivers() {
    let set = set_a().edit(X, first(), |x| x.channels(1, 4));
    let expected = "\
set.x01:25:72: refused with 6: the channels do not lead to as many receivers as are named
4 channels by 1 are 4 receivers; 101 to 103 are 3
X100     1111L1                   5011   1   41L1                   101     1031
                                                                       ^
";
    hold("lines_other_receivers", &set, "REFUSED 6 X 25 72", expected);
}

#[test]
fn other_receivers_downwards() {
    let set = tape(&set_a().edit(X, first(), |x| x.increment(" ").receivers(104, 101)));
    let expected = "\
set.x01:25:72: refused with 6: the channels do not lead to as many receivers as are named
3 channels by 1 are 3 receivers; 104 to 101 are 4
X100     1111L1                   5011   1   3 L1                   104     1011
                                                                       ^
";
    hold("lines_other_receivers_downwards", &set, "REFUSED 6 X 25 72", expected);
}

#[test]
fn one_receiver() {
    let set = set_a().edit(X, first(), |x| x.increment("3").receivers(101, 102));
    let expected = "\
set.x01:25:72: refused with 6: the channels do not lead to as many receivers as are named
3 channels by 3 are 1 receiver; 101 to 102 are 2
X100     1111L1                   5011   1   33L1                   101     1021
                                                                       ^
";
    hold("lines_one_receiver", &set, "REFUSED 6 X 25 72", expected);
}
