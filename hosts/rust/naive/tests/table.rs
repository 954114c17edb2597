//! The whole table through the naive reader, a test for each section.

mod common;

use small_sets::{Case, SECTIONS};

/// What is wrong with the answer to a case, if anything.
fn fault(case: &Case) -> Option<String> {
    let (answer, number) = common::answer(&case.set, &case.question);
    let expected = (case.expected.clone(), case.expected.host_number());
    if (&answer, number) == (&expected.0, expected.1) {
        return None;
    }
    Some(format!("{}\n    expected {expected:?}\n    answered {:?}", case.name, (answer, number)))
}

fn run(section: &str) {
    let (_, cases) =
        SECTIONS.iter().find(|(name, _)| *name == section).expect("a section of the table");
    let cases = cases();
    assert!(!cases.is_empty());
    let faults: Vec<String> = cases.iter().filter_map(fault).collect();
    assert!(
        faults.is_empty(),
        "{} of {} cases differ:\n{}",
        faults.len(),
        cases.len(),
        faults.join("\n")
    );
}

macro_rules! sections {
    ($($section:ident)*) => {
        $(
            #[test]
            fn $section() {
                run(stringify!($section));
            }
        )*

        #[test]
        fn every_section_has_its_test() {
            let tested = [$(stringify!($section)),*];
            assert_eq!(tested, SECTIONS.map(|(name, _)| name));
        }
    };
}

sections! {
    paper files headers points decimals markers relations order records covers backwards code_tables
    killed questions pairs_of_form pairs_of_set answers tapes forms
}
