//! A kind that is none is 20 without a place, whatever the medium and the file are.

use crate::archive;
use naive::HostNumber;
use small_sets::{set_a, File};

const OUT_OF_RANGE: u64 = 20 << 40;

/// Disc, tape, and numbers that are neither.
const MEDIA: [u64; 8] = [1, 2, 0, 3, 82, (1 << 32) + 1, (1 << 63) + 2, u64::MAX];

/// Every byte but the three letters, the numbers of files among them, and numbers of which
/// fewer bits are a letter.
fn no_kinds() -> Vec<u64> {
    let letters = File::ALL.map(File::kind);
    let bytes = (0..256).filter(|byte| !letters.contains(byte));
    let wide = (8..64).flat_map(|bit| letters.map(|letter| letter + (1 << bit)));
    let upper = letters.map(|letter| u64::MAX << 8 | letter);
    bytes.chain(wide).chain(upper).chain([u64::MAX, 1 << 40, OUT_OF_RANGE]).collect()
}

/// The files of set A on disc and on tape, each of them cut, and an empty one.
fn files() -> Vec<Vec<u8>> {
    let (disc, tape) = (set_a(), set_a().on_tape().expect("characters of a tape"));
    let sound = [disc, tape].map(|set| [set.r, set.s, set.x]).concat();
    let cut = sound.iter().map(|file| file[..79].to_vec()).collect();
    [sound, cut, vec![Vec::new()]].concat()
}

#[test]
fn another_kind() {
    for file in files() {
        for kind in no_kinds() {
            for medium in MEDIA {
                let number = archive::form(medium, kind, &file);
                assert_eq!(number, OUT_OF_RANGE, "kind {kind}, medium {medium}");
                let naive = naive::medium(medium)
                    .and_then(|medium| naive::form(medium, kind, &file))
                    .host_number();
                assert_eq!(naive, OUT_OF_RANGE, "kind {kind}, medium {medium}");
            }
        }
    }
}
