//! Where two answers differ.

use small_sets::Answer;

pub fn difference(found: &Answer, expected: &Answer) -> String {
    match (found, expected) {
        (
            Answer::Spread { highest, lines, components },
            Answer::Spread { highest: same, lines: other_lines, components: other_components },
        ) if highest == same => {
            let line = lines.iter().zip(other_lines).position(|(a, b)| a != b);
            let component = components.iter().zip(other_components).position(|(a, b)| a != b);
            format!("  first place that differs: of lines {line:?}, of components {component:?}")
        }
        _ => format!("  found    {found:?}\n  expected {expected:?}"),
    }
}
