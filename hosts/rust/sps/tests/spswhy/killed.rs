//! Killed points: five counts, and where a killed shot that is named stands.

use crate::{media, of};
use small_sets::place::{below, first};
use small_sets::File::{R, S, X};
use small_sets::{examples, relation, set_a, shot, Set};

#[test]
fn dead_traces() {
    let example = examples().into_iter().find(|example| example.name == "killed");
    let set = example.expect("the example").set;
    for set in media(&set) {
        let expected = (Some(0), "ACCEPTED 3 2 1 9 3\n".to_owned(), String::new());
        assert_eq!(of("dead_traces", &set), expected);
    }
    let all = (1..=3).fold(set_a(), |set, n| set.put(R, below(n), 27, "KL"));
    assert_eq!(of("dead_traces", &all).1, "ACCEPTED 3 1 1 3 3\n");
}

/// Holds what is said of a relation line whose shot is not there, or is killed in a line of S:
/// both media the same.
fn hold(name: &str, set: &Set, line: usize, killed: Option<usize>) {
    let [(status, verdict, reason), on_tape] = media(set).map(|set| of(name, &set));
    assert_eq!((status, verdict.as_str()), (Some(1), &*format!("REFUSED 13 X {line} 14\n")));
    assert_eq!(on_tape, (status, verdict, reason.clone()), "{name}");
    assert!(reason.starts_with(&format!("set.x01:{line}:14: refused with 13: ")), "{reason}");
    match killed {
        Some(line) => {
            let told = format!("\nthat shot is killed (S line {line})\n");
            assert!(reason.contains(&told), "{reason}");
            let text = String::from_utf8_lossy(&set.line(S, line).0).into_owned();
            let other = format!("\nset.s01:{line}:27: the killed shot\n{text}\n{:>27}\n", '^');
            assert!(reason.ends_with(&other), "{reason}");
        }
        None => {
            let told = ["that shot is killed", "the killed shot"];
            assert!(!told.iter().any(|words| reason.contains(words)), "{reason}");
        }
    }
}

#[test]
fn a_killed_shot_is_named() {
    let killed = set_a().put(S, first(), 27, "KL");
    hold("killed_shot", &killed, first(), Some(first()));
    let zeros = killed.clone().put(X, first(), 30, "00000501").put(X, first(), 38, " ");
    hold("killed_zeros", &zeros, first(), Some(first()));
    let blank = killed.put(S, first(), 26, " ").put(S, first(), 18, "00000501");
    hold("killed_blank", &blank, first(), Some(first()));
    let third = set_a()
        .add(S, shot(502).code("KL"))
        .add(S, shot(503).code("KL"))
        .add(X, relation().record(12).source(503));
    hold("killed_third", &third, below(2), Some(below(3)));
}

/// Killed shots of another name, number or index, and live ones, are not it.
#[test]
fn no_shot_is_named() {
    let k = |point| shot(point).code("KL");
    let others = [k(502), k(501).index("2"), k(501).name("L 1"), k(501).name("l1")];
    let set = set_a().remove(S, first()).add_all(S, others);
    hold("none_is_it", &set, first(), None);
    hold("no_shot", &set_a().remove(S, first()), first(), None);
    let marker = set_a().put(S, first(), 27, "PM");
    hold("a_marker", &marker, first(), None);
}
