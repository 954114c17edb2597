//! The proved checker and writer of SPS sets, for Rust.
//!
//! An SPS set is three files: receivers R, shots S and relations X, lines of 80
//! columns, on disc or on tape ([`Medium`]). [`form`](form()) accepts one file as what it
//! is said to be, or refuses it, and [`Set::cross`] three files with their counts; a
//! refusal is the first breach of the paper's rules. [`Set::record`] asks where the traces
//! of a record come from, and [`Set::rows`] goes through all traces of the set.
//! [`Set::table_line`] says which header line names a code. [`read_point`] and
//! [`read_relation`] give the values of one line, which [`Point::write`] and
//! [`Relation::write`] write.
//!
//! ```
//! # let read = |name| std::fs::read(format!("../../../examples/set_a/{name}"));
//! # let (r, s, x) = (read("set.r01")?, read("set.s01")?, read("set.x01")?);
//! assert_eq!(sps::form(sps::Medium::Disc, sps::File::R, &r), Ok(()));
//!
//! let set = sps::Set::new(sps::Medium::Disc, &r, &s, &x);
//! assert_eq!(set.cross()?.to_string(), "ACCEPTED 3 1 1 3 0");
//!
//! let record = set.record(b"100   ", 11);
//! let trace = record.channel(2)?.expect("a trace");
//! assert_eq!((trace.r_line, trace.component, trace.killed), (26, 1, false));
//! assert_eq!(record.receiver(trace.r_line, trace.component)?, Some(2));
//!
//! let rows = set.rows().collect::<Result<Vec<_>, _>>()?;
//! assert_eq!((rows[1].channel, rows[1].r_line, rows.len()), (2, 26, 3));
//!
//! let mut relation = sps::read_relation(sps::Medium::Disc, &x, 25)?;
//! relation.record = 12;
//! relation.write(&mut [0; 82])?;
//! # Ok::<(), Box<dyn std::error::Error>>(())
//! ```
//!
//! The calls are those of `libsps.a`, which are proved to meet the paper for every
//! input; here their numbers get names. Files are lent and never copied, no call
//! panics, and each takes less than 200 KB of stack. Calls share nothing, so they may
//! run at the same time. Numbers are `u64`, as the calls have them: a question or a value
//! is judged whole, and out of range it is refused ([`Number::QuestionRange`],
//! [`Number::ValueRange`]).

#![deny(unsafe_code)]
#![warn(missing_docs)]

mod archive;
mod form;
mod kind;
mod medium;
mod number;
mod places;
mod point;
mod record;
mod refusal;
mod relation;
mod rows;
mod set;

pub use form::form;
pub use kind::Kind;
pub use medium::Medium;
pub use number::Number;
pub use point::{read_point, Point, PointState};
pub use record::{Record, Trace};
pub use refusal::{File, Refusal};
pub use relation::{read_relation, Relation};
pub use rows::{Row, Rows};
pub use set::{Accepted, Set};
