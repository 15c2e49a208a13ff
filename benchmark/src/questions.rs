//! Edits of records at the limits of which it is asked why they must stand, or can never
//! stand.

use crate::shapes::{any_two, filled, sound_record, Row};
use check::model::{Record, Rule, Tables, EDIT_LIMIT};
use std::collections::BTreeSet;

/// The layers of the record with many rings, and how many edits each has.
const LAYERS: usize = 14;
const WIDTH: usize = (EDIT_LIMIT - 1) / LAYERS;

/// A record and the name of the edit that is asked of.
pub struct Question {
    pub name: &'static str,
    pub record: Record,
    pub edit: u16,
}

impl Question {
    pub fn tables(&self) -> Tables {
        Tables::from(&self.record)
    }
}

/// All questions; each has an answer.
pub fn questions() -> Vec<Question> {
    vec![
        question("must chain", 1, must_chain()),
        question("long ring", EDIT_LIMIT, long_ring()),
        question("many rings", EDIT_LIMIT, many_rings()),
        question("far ring", 1, far_ring()),
    ]
}

fn question(name: &'static str, edit: usize, rows: BTreeSet<Row>) -> Question {
    let record = sound_record(name, rows);
    let edit = record.edits[edit - 1].name;
    Question { name, record, edit }
}

/// Each edit enables the next, and the last one is required.
fn must_chain() -> BTreeSet<Row> {
    let links = (1..EDIT_LIMIT).map(|edit| (edit, Rule::Enables, edit + 1));
    without_rings(links.chain([(EDIT_LIMIT, Rule::Enables, 0)]).collect())
}

/// All edits but the last are one ring, and enable the last.
fn long_ring() -> BTreeSet<Row> {
    let ring = (1..EDIT_LIMIT).map(|edit| (edit, Rule::NotAfter, edit % (EDIT_LIMIT - 1) + 1));
    let rows = ring.chain(all_needed()).collect();
    filled(rows, 8, |random| {
        let (low, high) = any_two(random);
        (low, Rule::Noncommuting, high)
    })
}

/// All edits but the last stand in layers, each notafter some of the next layer, those
/// of the last layer notafter some of the first; they enable the last edit.
fn many_rings() -> BTreeSet<Row> {
    filled(all_needed().collect(), 9, |random| {
        let layer = random.below(LAYERS);
        let edit = |layer: usize, place: usize| layer % LAYERS * WIDTH + place + 1;
        let (from, to) = (edit(layer, random.below(WIDTH)), edit(layer + 1, random.below(WIDTH)));
        (from, Rule::NotAfter, to)
    })
}

/// Each edit but the last needs the next, and the last two are a ring.
fn far_ring() -> BTreeSet<Row> {
    let last = EDIT_LIMIT;
    let links = (1..last).map(|edit| (edit + 1, Rule::Enables, edit));
    let ring = [(last - 1, Rule::NotAfter, last), (last, Rule::NotAfter, last - 1)];
    without_rings(links.chain(ring).collect())
}

fn all_needed() -> impl Iterator<Item = Row> {
    (1..EDIT_LIMIT).map(|edit| (edit, Rule::Enables, EDIT_LIMIT))
}

/// Notafter from lower to higher edits: such rows alone make no ring.
fn without_rings(rows: BTreeSet<Row>) -> BTreeSet<Row> {
    filled(rows, 10, |random| {
        let (low, high) = any_two(random);
        (low, Rule::NotAfter, high)
    })
}
