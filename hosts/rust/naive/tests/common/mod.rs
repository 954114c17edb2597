//! The naive reader asked as the table asks.

use naive::{Counts, HostNumber, Refusal, Trace};
use small_sets::{Answer, Question, Set, STAYS};

/// The answer in the table's form and the number for a C host. A refused
/// spread leaves both slices as they are.
pub fn answer(set: &Set, question: &Question) -> (Answer, u64) {
    let (medium, files) = (naive::medium(set.medium as u64).expect("a medium"), set.files());
    match question {
        Question::Form { file, kind } => {
            both(naive::form(medium, *kind, set.file(*file)), |()| Answer::Formed)
        }
        Question::Cross => both(naive::check(medium, files), accepted),
        Question::Trace { tape, record, channel } => {
            both(naive::trace(medium, files, tape, *record, *channel), traced)
        }
        Question::Channel { tape, record, r_line, component } => {
            both(naive::channel(medium, files, tape, *record, *r_line, *component), |channel| {
                channel.map_or(Answer::NoTrace, Answer::Channel)
            })
        }
        Question::Spread { tape, record, lines_len, components_len } => {
            let mut lines = vec![u16::from_ne_bytes([STAYS; 2]); *lines_len];
            let mut components = vec![STAYS; *components_len];
            let before = (lines.clone(), components.clone());
            let answer = naive::spread(medium, files, tape, *record, &mut lines, &mut components);
            if answer.is_err() {
                assert_eq!(before, (lines.clone(), components.clone()), "{answer:?}");
            }
            both(answer, |highest| Answer::Spread { highest, lines, components })
        }
        Question::TableLine { kind, code } => {
            both(naive::table_line(medium, files, *kind, code), |line| {
                line.map_or(Answer::NotNamed, Answer::TableLine)
            })
        }
    }
}

fn both<T>(answer: Result<T, Refusal>, show: impl FnOnce(T) -> Answer) -> (Answer, u64)
where
    Result<T, Refusal>: HostNumber,
{
    let number = answer.host_number();
    (answer.map_or_else(refused, show), number)
}

fn refused(refusal: Refusal) -> Answer {
    Answer::Refused {
        number: refusal.number,
        file: refusal.file.map_or(0, |file| file as u8 + 1),
        line: refusal.line,
        column: refusal.column,
    }
}

fn accepted(counts: Counts) -> Answer {
    Answer::Accepted {
        receivers: counts.receivers,
        shots: counts.shots,
        relations: counts.relations,
        traces: counts.traces,
        dead_traces: counts.dead_traces,
    }
}

fn traced(trace: Option<Trace>) -> Answer {
    match trace {
        Some(Trace { r_line, component, killed }) => Answer::Trace { r_line, component, killed },
        None => Answer::NoTrace,
    }
}
