//! The proved code, reached through its archives.

use check::library::Reply;
use check::model::{ConstraintRow, EditRow, Tables};

#[derive(PartialEq, Eq, Debug)]
#[repr(C)]
pub struct Judged {
    pub number: u32,
    pub must: [u8; 128],
    pub never: [u8; 128],
    pub settled: [u8; 128],
    pub place: [u8; 128],
}

#[derive(PartialEq, Eq, Debug)]
#[repr(C)]
pub struct Scheduled {
    pub number: u32,
    /// The pages of the bench schedule.
    pub count: usize,
}

#[derive(PartialEq, Eq, Debug)]
#[repr(C)]
pub struct Merged {
    pub number: u32,
    pub undone: usize,
    pub redone: usize,
}

#[derive(PartialEq, Eq, Debug)]
#[repr(C)]
pub struct Elected {
    pub number: u32,
    pub won: u32,
    pub greatest: u32,
    pub silent: u32,
    pub total: u32,
}

#[derive(PartialEq, Eq, Debug)]
#[repr(C)]
pub struct Explained {
    pub number: u32,
    /// How many bytes were written.
    pub size: usize,
}

check::functions_of_slices! {
    fn measure_judgement(edits: &[EditRow], constraints: &[ConstraintRow]) -> Judged;
    fn measure_schedule(edits: &[EditRow], constraints: &[ConstraintRow]) -> Scheduled;
    fn measure_merge(
        edits: &[EditRow], constraints: &[ConstraintRow],
        other_edits: &[EditRow], other_constraints: &[ConstraintRow]
    ) -> Merged;
    fn measure_election[edit: u32](
        edits: &[EditRow], constraints: &[ConstraintRow],
        rival_edits: &[EditRow], rival_constraints: &[ConstraintRow]
    ) -> Elected;
    fn measure_reason[edit: u32](
        edits: &[EditRow], constraints: &[ConstraintRow]; out: &mut [u8]
    ) -> Explained;
    pub fn catalogue_report(text: &[u8]; out: &mut [u8]) -> Reply;
    pub fn catalogue_replay(log: &[u8]; work: &mut [u8], out: &mut [u8]) -> Reply;
}

pub fn judgement(tables: &Tables) -> Judged {
    measure_judgement(&tables.edits, &tables.constraints)
}

pub fn schedule(tables: &Tables) -> Scheduled {
    measure_schedule(&tables.edits, &tables.constraints)
}

/// The answer to the second of two merges on an empty bench.
pub fn merge(first: &Tables, second: &Tables) -> Merged {
    measure_merge(&first.edits, &first.constraints, &second.edits, &second.constraints)
}

/// Benches 1 to 4 lend the first record, 5 to 8 the rival, each of weight 1.
pub fn election(edit: u32, first: &Tables, rival: &Tables) -> Elected {
    measure_election(edit, &first.edits, &first.constraints, &rival.edits, &rival.constraints)
}

/// The line that tells why the edit must stand, or can never stand.
pub fn reason(edit: u32, tables: &Tables, out: &mut [u8]) -> Explained {
    measure_reason(edit, &tables.edits, &tables.constraints, out)
}
