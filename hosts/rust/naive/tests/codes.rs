//! Each of the 65,536 codes in a line of R and in one of S, and of any other file.

use naive::{read_point, Fault, File, PointLine};
use small_sets::{codes, receiver, shot};

/// Those of the list are taken, PM as a marker and KL as a killed point; every other is 5 at
/// column 27.
#[test]
fn each_code() {
    for (file, listed, mut line, points) in [
        (File::R, codes(small_sets::File::R), receiver(101), 27),
        (File::S, codes(small_sets::File::S), shot(501), 45),
        (File::X, codes(small_sets::File::S), shot(501), 45),
    ] {
        let (mut live, mut killed, mut markers) = (0, 0, 0);
        for code in (0..=u16::MAX).map(u16::to_be_bytes) {
            line.0[26..28].copy_from_slice(&code);
            let how = format!("{file:?} {}", code.escape_ascii());
            let read = read_point(file, &line.0);
            assert_eq!(read.is_ok(), listed.contains(&code), "{how}");
            match read {
                Ok(PointLine::Live(point)) => {
                    assert_eq!(point.code, code);
                    live += 1;
                }
                Ok(PointLine::Killed(point)) => {
                    assert_eq!((code, point.code), (*b"KL", *b"KL"));
                    killed += 1;
                }
                Ok(PointLine::Marker(_)) => {
                    assert_eq!(code, *b"PM");
                    markers += 1;
                }
                Err(fault) => assert_eq!(fault, Fault { number: 5, column: 27 }, "{how}"),
            }
        }
        assert_eq!((live, killed, markers), (points, 1, 1), "{file:?}");
    }
}
