//! The ways to put a question to a file or a set. The answers have the table's form; a
//! refused spread table is held to leave its slices as they are.

use crate::archive::{self, Files};
use crate::lent::{lent, stay};
use crate::wrapped::{self, wrapped};
use small_sets::{Answer, File, Question, Set, STAYS};
use sps::{Accepted, Kind, Record, Refusal, Trace};

/// What stands in each line's place before the question.
const LINE_STAYS: u16 = u16::from_le_bytes([STAYS; 2]);

/// The answers of each of the proved calls for a question, with how it is called.
pub fn proved(set: &Set, question: &Question) -> Vec<(&'static str, Answer)> {
    let files = set;
    let set = wrapped(files);
    match question {
        Question::Form { file, kind } => form(files, *file, *kind),
        Question::Cross => vec![("cross", told(set.cross(), accepted))],
        Question::Trace { tape, record, channel } => {
            vec![("channel", told(set.record(tape, *record).channel(*channel), traced))]
        }
        Question::Channel { tape, record, r_line, component } => {
            let answer = set.record(tape, *record).receiver(*r_line, *component);
            vec![("receiver", told(answer, channeled))]
        }
        &Question::Spread { ref tape, record, lines_len, components_len } => {
            let record = set.record(tape, record);
            vec![
                // These are lent as an even number of bytes.
                ("16-bit numbers", spread(record, lines_len, components_len)),
                ("an odd number of bytes", spread_bytes(record, 2 * lines_len + 1, components_len)),
            ]
        }
        Question::TableLine { kind, code } => table_line(files, *kind, code),
    }
}

/// The call takes any kind, the wrapper those that have a name.
fn form(set: &Set, file: File, kind: u64) -> Vec<(&'static str, Answer)> {
    let (medium, file) = (set.medium, set.file(file));
    let by_name = File::of_kind(kind).map(|kind| {
        let answer = sps::form(wrapped::medium(medium), wrapped::file(kind), file);
        ("form", told(answer, |()| Answer::Formed))
    });
    let answer = unpacked(archive::form(medium as u64, kind, file), |number| {
        assert_eq!(number, 0);
        Answer::Formed
    });
    by_name.into_iter().chain([("sps_form", answer)]).collect()
}

/// The same of the kind of a code.
fn table_line(set: &Set, kind: u64, code: &[u8]) -> Vec<(&'static str, Answer)> {
    let Set { medium, r, s, x } = set;
    let files = Files { medium: *medium as u64, r, s, x };
    let line =
        |line: Option<u64>| line.map_or(Answer::NotNamed, |line| Answer::TableLine(small(line)));
    let by_name = File::of_kind(kind).map(|file| {
        let kind = match file {
            File::R => Kind::Receiver,
            File::S => Kind::Source,
            File::X => Kind::Instrument,
        };
        ("table_line", told(wrapped(set).table_line(kind, code), line))
    });
    let packed = archive::table_line(files, kind, code);
    let answer = unpacked(packed, |number| line(Some(number).filter(|line| *line > 0)));
    by_name.into_iter().chain([("sps_table_line", answer)]).collect()
}

/// The number of a call: a refusal from 2^40 on, otherwise as it is shown.
fn unpacked(packed: u64, show: impl FnOnce(u64) -> Answer) -> Answer {
    match packed >> 40 {
        0 => show(packed),
        number => Answer::Refused {
            number: small(number),
            file: small(packed >> 32 & 0xFF),
            line: small(packed >> 8 & 0xFF_FFFF),
            column: small(packed & 0xFF),
        },
    }
}

fn told<T>(answer: Result<T, Refusal>, show: impl FnOnce(T) -> Answer) -> Answer {
    answer.map_or_else(refused, show)
}

fn refused(Refusal { number, file, line, column }: Refusal) -> Answer {
    Answer::Refused {
        number: small(number.code()),
        file: file.map_or(0, |file| file as u8 + 1),
        line: small(line),
        column: small(column),
    }
}

fn accepted(counts: Accepted) -> Answer {
    let Accepted { receivers, shots, relations, traces, dead_traces } = counts;
    Answer::Accepted { receivers, shots, relations, traces, dead_traces }
}

fn traced(trace: Option<Trace>) -> Answer {
    trace.map_or(Answer::NoTrace, |Trace { r_line, component, killed }| Answer::Trace {
        r_line: small(r_line),
        component: small(component),
        killed,
    })
}

fn channeled(channel: Option<u64>) -> Answer {
    channel.map_or(Answer::NoTrace, |channel| Answer::Channel(small(channel)))
}

fn small<T: TryFrom<u64>>(number: u64) -> T {
    number.try_into().unwrap_or_else(|_| panic!("{number} is too large"))
}

fn spread(record: Record, lines_len: usize, components_len: usize) -> Answer {
    let ((answer, components), lines) = lent(LINE_STAYS, lines_len, |lines| {
        lent(STAYS, components_len, |components| record.spread(lines, components))
    });
    filled(answer, lines, components)
}

fn spread_bytes(record: Record, bytes_len: usize, components_len: usize) -> Answer {
    let ((answer, components), bytes) = lent(STAYS, bytes_len, |bytes| {
        lent(STAYS, components_len, |components| record.spread_bytes(bytes, components))
    });
    let (places, over) = bytes.as_chunks();
    stay(STAYS, over);
    filled(answer, places.iter().copied().map(u16::from_le_bytes).collect(), components)
}

fn filled(answer: Result<u64, Refusal>, lines: Vec<u16>, components: Vec<u8>) -> Answer {
    if answer.is_err() {
        stay(LINE_STAYS, &lines);
        stay(STAYS, &components);
    }
    told(answer, |highest| Answer::Spread { highest: small(highest), lines, components })
}
