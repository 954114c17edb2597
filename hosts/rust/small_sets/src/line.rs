//! Lines of 80 columns, built from the values that the paper gives to set A.

use crate::File;

/// Columns 1 to 80. Columns count from 1.
#[derive(Clone, Copy, Debug, PartialEq, Eq)]
pub struct Line(pub [u8; 80]);

/// A header line of a type, otherwise blank.
pub fn header(number: usize) -> Line {
    Line([b' '; 80]).at(1, &format!("H{number:02}"))
}

/// A header line of three digits with a code; a digit is the code of an instrument.
pub fn header_with(number: usize, code: &str) -> Line {
    let line = header(number).at(33, code);
    match code.len() {
        1 => line.at(34, ","),
        _ => line,
    }
}

/// The first record of one of the tables for a code's kind, which are counted from 0.
pub fn first_record(at: usize, code: &str) -> Line {
    let (first, step, tables) = match code.as_bytes()[0] {
        b'1'..=b'9' => (400, 20, 9),
        b'G' | b'H' | b'R' => (600, 10, 10),
        _ => (700, 20, 10),
    };
    header_with(first + at % tables * step, code)
}

/// A receiver of set A with another point number.
pub fn receiver(point: u32) -> Line {
    point_line("R", "G1").point(point)
}

/// The shot of set A with another point number.
pub fn shot(point: u32) -> Line {
    point_line("S", "V1").point(point)
}

/// A marker whose free columns hold text.
pub fn marker(file: File) -> Line {
    point_line(file.letter(), "PM")
        .name("M1")
        .at(18, "su ~ -1.")
        .at(29, "any text, - + . 18")
        .at(72, "no time.~")
}

/// The relation line of set A.
pub fn relation() -> Line {
    Line([b' '; 80])
        .at(1, "X")
        .tape("100")
        .record(11)
        .record_increment("1")
        .instrument("1")
        .source_name("L1")
        .source(501)
        .source_index("1")
        .channels(1, 3)
        .increment("1")
        .receiver_name("L1")
        .receivers(101, 103)
        .receiver_index("1")
}

fn point_line(letter: &str, code: &str) -> Line {
    Line([b' '; 80])
        .at(1, letter)
        .name("L1")
        .index("1")
        .code(code)
        .at(33, " 0.0")
        .at(37, "   0")
        .at(47, "      0.0")
        .at(56, "       0.0")
        .at(66, "   0.0")
        .day(113)
        .time("071245")
}

impl Line {
    /// The text put over the columns from `column` on.
    pub fn at(mut self, column: usize, text: &str) -> Line {
        self.0[column - 1..column - 1 + text.len()].copy_from_slice(text.as_bytes());
        self
    }

    /// The text on the left of columns `first` to `last`.
    fn left(self, first: usize, last: usize, text: &str) -> Line {
        let width = last + 1 - first;
        self.at(first, &format!("{text:width$}"))
    }

    /// The number on the right of columns `first` to `last`.
    fn right(self, first: usize, last: usize, number: u32) -> Line {
        let width = last + 1 - first;
        self.at(first, &format!("{number:width$}"))
    }
}

/// The fields of a point line.
impl Line {
    pub fn name(self, name: &str) -> Line {
        self.left(2, 17, name)
    }

    pub fn point(self, number: u32) -> Line {
        self.right(18, 25, number)
    }

    pub fn index(self, index: &str) -> Line {
        self.at(26, index)
    }

    pub fn code(self, code: &str) -> Line {
        self.at(27, code)
    }

    pub fn day(self, day: u32) -> Line {
        self.right(72, 74, day)
    }

    pub fn time(self, time: &str) -> Line {
        self.at(75, time)
    }
}

/// The fields of a relation line.
impl Line {
    pub fn tape(self, tape: &str) -> Line {
        self.left(2, 7, tape)
    }

    pub fn record(self, record: u32) -> Line {
        self.right(8, 11, record)
    }

    pub fn record_increment(self, increment: &str) -> Line {
        self.at(12, increment)
    }

    pub fn instrument(self, instrument: &str) -> Line {
        self.at(13, instrument)
    }

    pub fn source_name(self, name: &str) -> Line {
        self.left(14, 29, name)
    }

    pub fn source(self, point: u32) -> Line {
        self.right(30, 37, point)
    }

    pub fn source_index(self, index: &str) -> Line {
        self.at(38, index)
    }

    pub fn channels(self, from: u32, to: u32) -> Line {
        self.right(39, 42, from).right(43, 46, to)
    }

    pub fn increment(self, increment: &str) -> Line {
        self.at(47, increment)
    }

    pub fn receiver_name(self, name: &str) -> Line {
        self.left(48, 63, name)
    }

    pub fn receivers(self, from: u32, to: u32) -> Line {
        self.right(64, 71, from).right(72, 79, to)
    }

    pub fn receiver_index(self, index: &str) -> Line {
        self.at(80, index)
    }
}
