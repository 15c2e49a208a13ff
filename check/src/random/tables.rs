//! Random edits and tables, sound or with a chosen fault.

use super::Random;
use crate::model::{
    is_name, propose, Body, Constraint, ConstraintRow, Deed, Edit, EditRow, Field, Record, Room,
    Tables, PLACES,
};
use std::collections::BTreeSet;

/// The largest output that is ever asked for.
pub const ROOM: Room = Room { edits: 127, constraints: 512 };

/// The edits that one log or text speaks of, by ascending name. Few of them, so
/// that calls meet one another.
pub struct World {
    pub edits: Vec<Edit>,
    places: Vec<u8>,
}

/// How a random record is to look.
#[derive(Clone, Copy)]
pub struct Recipe {
    pub edits: usize,
    pub constraints: usize,
    /// The share of constraints that are decisions, in percent.
    pub decisions: usize,
    /// The share of the others that are noncommuting, in percent.
    pub noncommuting: usize,
    /// Whether notafter follows one direction and makes no rings.
    pub straight: bool,
}

impl World {
    pub fn new(size: usize, random: &mut Random) -> World {
        let spread = random.pick(&[1, 4, 8]);
        let places = (0..spread).map(|_| any_place(random)).collect();
        let mut world = World { edits: Vec::new(), places };
        let mut names = any_names(size, random);
        names.sort_unstable();
        for name in names {
            let body = world.any_body(random);
            world.edits.push(Edit { name, body });
        }
        world
    }

    pub fn any_edit(&self, random: &mut Random) -> Edit {
        random.pick(&self.edits)
    }

    pub fn any_name(&self, random: &mut Random) -> u16 {
        self.any_edit(random).name
    }

    pub fn any_body(&self, random: &mut Random) -> Body {
        let place = random.pick(&self.places);
        let value = random.odd_number();
        let deed = match random.below(5) {
            0 | 1 => Deed::Insert,
            2 | 3 => Deed::Set { field: random.pick(&Field::ALL), value },
            _ => Deed::Remove,
        };
        Body { place, deed }
    }

    /// Some of the world's edits in order.
    pub fn some_edits(&self, count: usize, random: &mut Random) -> Vec<Edit> {
        let mut edits = self.edits.clone();
        random.shuffle(&mut edits);
        edits.truncate(count);
        edits.sort_unstable_by_key(|edit| edit.name);
        edits
    }

    pub fn any_recipe(&self, random: &mut Random) -> Recipe {
        let edits = random.between(1, self.edits.len().min(12));
        Recipe {
            edits,
            constraints: random.below(edits * 3),
            decisions: random.pick(&[0, 10, 30, 60]),
            noncommuting: random.pick(&[0, 20, 60]),
            straight: !random.one_in(4),
        }
    }

    /// A record in order that is stored well and may be sound or not.
    pub fn record(&self, recipe: Recipe, random: &mut Random) -> Record {
        let edits = self.some_edits(recipe.edits, random);
        let mut constraints = BTreeSet::new();
        // Few edits don't have that many constraints: the tries are bounded.
        for _ in 0..recipe.constraints * 4 {
            if !edits.is_empty() && constraints.len() < recipe.constraints {
                constraints.extend(any_constraint(&edits, recipe, random));
            }
        }
        Record { edits, constraints: constraints.into_iter().collect() }
    }

    pub fn any_record(&self, random: &mut Random) -> Record {
        let recipe = self.any_recipe(random);
        self.record(recipe, random)
    }

    /// A record in which everything is decided, so that there are bundles to
    /// vote for.
    pub fn decided_record(&self, random: &mut Random) -> Record {
        let record = self.any_record(random);
        propose(&Tables::from(&record), &Tables::default(), ROOM).unwrap_or(record)
    }

    /// A record that differs a little from another one.
    pub fn changed_record(&self, record: &Record, random: &mut Random) -> Record {
        let mut changed = record.clone();
        match random.below(4) {
            0 if !changed.edits.is_empty() => {
                let place = random.below(changed.edits.len());
                changed.edits[place].body = self.any_body(random);
            }
            1 if !changed.constraints.is_empty() => {
                changed.constraints.remove(random.below(changed.constraints.len()));
            }
            2 => changed = self.any_record(random),
            _ if !changed.edits.is_empty() => {
                let recipe = self.any_recipe(random);
                changed.constraints.extend(any_constraint(&changed.edits, recipe, random));
                changed.constraints.sort_unstable();
                changed.constraints.dedup();
            }
            _ => {}
        }
        changed
    }
}

fn any_place(random: &mut Random) -> u8 {
    match random.below(4) {
        0 => 0,
        1 => PLACES as u8 - 1,
        _ => random.below(PLACES) as u8,
    }
}

/// Distinct names: most of few benches, close to one another.
fn any_names(count: usize, random: &mut Random) -> Vec<u16> {
    let span = if count > 40 { 255 } else { 20 };
    let mut names = vec![];
    while names.len() < count {
        let number = match random.below(8) {
            0 => random.between(2290, 2303),
            1 => random.between(1, 8) * 256 + 255,
            _ => random.between(1, 8) * 256 + random.between(1, span),
        };
        if is_name(number as u32) && !names.contains(&(number as u16)) {
            names.push(number as u16);
        }
    }
    names
}

pub fn any_constraint(edits: &[Edit], recipe: Recipe, random: &mut Random) -> Option<Constraint> {
    let (one, other) = (random.below(edits.len()), random.below(edits.len()));
    let (left, right) = (edits[one].name, edits[other].name);
    if random.percent(recipe.decisions) {
        let aborted = random.one_in(4);
        return Some(if aborted { Constraint::aborted(left) } else { Constraint::required(left) });
    }
    let is_first = direction(left) < direction(right);
    let (first, second) = if is_first { (left, right) } else { (right, left) };
    let (from, to) = if recipe.straight { (first, second) } else { (left, right) };
    match random.below(2) {
        _ if left == right => None,
        _ if random.percent(recipe.noncommuting) => Some(Constraint::noncommuting(left, right)),
        0 => Some(Constraint::not_after(from, to)),
        _ => Some(Constraint::enables(from, to)),
    }
    .filter(|constraint| constraint.is_allowed())
}

/// One direction for all straight records, but not that of the names: low ones
/// come late too.
pub fn direction(name: u16) -> u16 {
    name.wrapping_mul(40_503).rotate_left(7)
}

/// Brings in two edits, each notafter the other and both required: 8.
pub fn require_a_ring(tables: &mut Tables, edits: &[Edit]) {
    let [one, other] = *edits else { return };
    for edit in [one, other] {
        if tables.edits.iter().all(|row| row.name != u32::from(edit.name)) {
            tables.edits.push(edit.into());
        }
        tables.constraints.push(Constraint::required(edit.name).into());
    }
    tables.constraints.push(Constraint::not_after(one.name, other.name).into());
    tables.constraints.push(Constraint::not_after(other.name, one.name).into());
    tables.edits.sort_unstable_by_key(|row| row.name);
    tables.constraints.sort_unstable();
    tables.constraints.dedup();
}

/// Spoils tables that are stored well. What comes of it is for the reader to say:
/// often the rows get a number, sometimes nothing is wrong.
pub fn spoil(tables: &mut Tables, world: &World, random: &mut Random) {
    if random.one_in(2) {
        spoil_edits(tables, world, random);
    } else {
        spoil_constraints(tables, world, random);
    }
}

fn spoil_edits(tables: &mut Tables, world: &World, random: &mut Random) {
    let rows = &mut tables.edits;
    if rows.is_empty() {
        let name = random.odd_number();
        rows.push(EditRow { name, kind: 0, place: 0, field: 0, value: 0 });
        return;
    }
    let (place, other) = (random.below(rows.len()), random.below(rows.len()));
    match random.below(11) {
        0 => rows.swap(place, other),
        1 => rows.insert(place, rows[other]),
        2 => rows.push(rows[other]),
        3 => rows.insert(place + 1, EditRow { value: 7, kind: 1, ..rows[place] }),
        4 => drop(rows.remove(place)),
        5 => rows[place].name = random.odd_number(),
        6 => rows[place].kind = random.odd_number(),
        7 => rows[place].place = random.odd_number(),
        8 => rows[place].field = random.odd_number(),
        9 => rows[place].value = random.odd_number(),
        _ => {
            let body = world.any_body(random);
            let name = rows[place].name as u16;
            rows[place] = Edit { name, body }.into();
        }
    }
}

fn spoil_constraints(tables: &mut Tables, world: &World, random: &mut Random) {
    let row = any_row(&tables.edits, world, random);
    let rows = &mut tables.constraints;
    if rows.is_empty() {
        rows.push(row);
        return;
    }
    let (place, other) = (random.below(rows.len()), random.below(rows.len()));
    let other_rule = ConstraintRow { rule: random.below(3) as u32, ..rows[place] };
    match random.below(17) {
        0 => rows.swap(place, other),
        1 => rows.insert(place, rows[other]),
        2 => rows.push(rows[other]),
        3 => rows.push(row),
        4 => rows[place].left = random.odd_number(),
        5 => rows[place].rule = random.odd_number(),
        6 => rows[place].right = random.odd_number(),
        7 => rows[place].left = 0,
        8 => rows[place].right = 0,
        9 => rows[place].right = rows[place].left,
        10 => {
            let ConstraintRow { left, rule, right } = rows[place];
            rows[place] = ConstraintRow { left: right, rule, right: left };
        }
        11 => rows[place] = other_rule,
        12 => rows.push(other_rule),
        13 => rows.extend([other_rule; 2]),
        14 => {
            rows.extend([other_rule; 2]);
            rows.sort_unstable();
        }
        _ => {
            // In its place, so that order isn't what is wrong with it.
            rows.push(row);
            rows.sort_unstable();
            rows.dedup();
        }
    }
}

/// A constraint on edits of the table, of the world, or none.
fn any_row(edits: &[EditRow], world: &World, random: &mut Random) -> ConstraintRow {
    let mut side = || match random.below(16) {
        0 => 0,
        1 => random.odd_number(),
        2..=9 if !edits.is_empty() => random.pick(edits).name,
        _ => u32::from(world.any_name(random)),
    };
    let (left, right) = (side(), side());
    ConstraintRow { left, rule: random.below(3) as u32, right }
}
