//! Document 01 in plain Rust: records, what they say, the bench and the votes.

mod bench;
mod book;
mod bundle;
mod catalogue;
mod graph;
mod ground;
mod proposal;
mod reason;
mod record;
mod sound;
mod suggestion;
#[cfg(test)]
mod tests;
pub mod text;
mod vote;

pub use bench::Bench;
pub use book::{Book, Pages};
pub use bundle::{is_eligible, Bundles};
pub use catalogue::{Catalogue, Entry};
pub use ground::Ground;
pub use proposal::{keeps, propose, Room};
pub use reason::{reason, Reason};
pub use record::{
    is_name, Body, Constraint, ConstraintRow, Deed, Edit, EditRow, Field, Joining, Record, Rule,
    Tables, CONSTRAINT_LIMIT, EDIT_LIMIT, INIT, PLACES,
};
pub use sound::{is_sound_schedule, Sound};
pub use suggestion::{suggest, suggest_named, Case};
pub use vote::{election, tally, Election, RollRow, BENCHES};
