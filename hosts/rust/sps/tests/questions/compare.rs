//! One question, both readers.

use crate::difference::difference;
use crate::entries::proved;
use crate::keep::keep;
use crate::naive_entry::answer;
use small_sets::{Answer, Question, Set};

/// Holds the readers together on a question, and returns what they agree on.
pub fn compare(set: &Set, question: &Question) -> Answer {
    let (naive, _) = answer(set, question);
    for (call, proved) in proved(set, question) {
        if proved != naive {
            let kept = keep(set);
            let (kept, difference) = (kept.display(), difference(&proved, &naive));
            panic!("{question} ({call})\n{difference}\n  the files are in {kept}");
        }
    }
    naive
}
