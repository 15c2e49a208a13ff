//! Document 01 and the call log in plain Rust, written for speed as a matter of
//! course: adjacency lists, worklists, names resolved once, one buffer printed
//! into. No tricks. Grounds, rows, edits and the pages of a schedule are those of
//! `check`.

mod bench;
mod bundle;
mod election;
mod graph;
mod joining;
mod order;
mod print;
mod proposal;
mod reason;
mod record;
mod rings;
mod session;
mod sound;
#[cfg(test)]
mod tests;
mod text;

pub use bench::Bench;
pub use election::{election, Election};
pub use reason::explain;
pub use record::Record;
pub use session::{replay, Session};
pub use sound::{judgement, schedule, Judgement, Sound};
pub use text::{report, shelf, Fault};
