//! Records, with the index of each name at hand.

use super::graph::Link;
use check::model::{is_name, Constraint, Edit, Ground, Tables, CONSTRAINT_LIMIT};

/// One past the greatest name.
const NAME_LIMIT: usize = 2304;

/// A checked record. Edits have the indexes from 1, INIT has 0.
#[derive(Clone)]
pub struct Record {
    pub edits: Vec<Edit>,
    pub constraints: Vec<Constraint>,
    /// By name; 0 where the name is not known.
    indexes: Vec<u8>,
}

impl Default for Record {
    fn default() -> Record {
        Record { edits: Vec::new(), constraints: Vec::new(), indexes: vec![0; NAME_LIMIT] }
    }
}

impl Record {
    pub fn tables(&self) -> Tables {
        Tables::new(&self.edits, &self.constraints)
    }

    /// How many indexes there are.
    pub fn size(&self) -> usize {
        self.edits.len() + 1
    }

    /// The index of a name that is in its range, INIT's too.
    pub fn index(&self, name: u16) -> Option<usize> {
        let index = usize::from(self.indexes[usize::from(name)]);
        (index != 0 || name == 0).then_some(index)
    }

    /// The index of a name that the record is known to have.
    pub fn known_index(&self, name: u16) -> usize {
        usize::from(self.indexes[usize::from(name)])
    }

    /// The index of an edit that a call speaks of.
    pub fn named(&self, number: u32) -> Result<usize, Ground> {
        if !is_name(number) {
            return Err(Ground::Range);
        }
        self.index(number as u16).ok_or(Ground::Unknown)
    }

    pub fn edit(&self, name: u16) -> Option<&Edit> {
        self.index(name).map(|index| &self.edits[index - 1])
    }

    pub fn has(&self, constraint: Constraint) -> bool {
        self.constraints.binary_search(&constraint).is_ok()
    }

    /// A constraint by indexes, if both ends are known and the pair is allowed.
    pub fn link(&self, constraint: Constraint) -> Result<Link, Ground> {
        let ends = (self.index(constraint.left), self.index(constraint.right));
        let (Some(left), Some(right)) = ends else { return Err(Ground::Unknown) };
        match constraint.is_allowed() {
            true => Ok(Link::new(left, constraint.rule, right)),
            false => Err(Ground::Pair),
        }
    }

    /// Puts an edit behind all others.
    pub fn push_edit(&mut self, edit: Edit) {
        self.edits.push(edit);
        self.indexes[usize::from(edit.name)] = self.edits.len() as u8;
    }

    /// Puts an edit that isn't there where its name belongs.
    pub fn insert_edit(&mut self, edit: Edit) {
        let place = self.edits.partition_point(|other| other.name < edit.name);
        self.edits.insert(place, edit);
        for (index, edit) in self.edits.iter().enumerate().skip(place) {
            self.indexes[usize::from(edit.name)] = index as u8 + 1;
        }
    }

    /// Set union; one name has one body in both.
    pub fn union(&self, other: &Record) -> Record {
        let mut union = Record::default();
        merge(&self.edits, &other.edits, |edit| edit.name, |edit| union.push_edit(edit));
        let constraints = &mut union.constraints;
        constraints.reserve(self.constraints.len() + other.constraints.len());
        let key = |constraint: &Constraint| *constraint;
        merge(&self.constraints, &other.constraints, key, |constraint| {
            constraints.push(constraint)
        });
        union
    }

    /// Takes in more constraints, if there is place for those that are new.
    pub fn take_in(&mut self, mut constraints: Vec<Constraint>) -> Result<(), Ground> {
        constraints.sort_unstable();
        constraints.dedup();
        constraints.retain(|constraint| !self.has(*constraint));
        if self.constraints.len() + constraints.len() > CONSTRAINT_LIMIT {
            return Err(Ground::NoPlace);
        }
        self.constraints.append(&mut constraints);
        self.constraints.sort();
        Ok(())
    }
}

/// Puts the rows of two tables in order, each once.
fn merge<Row: Copy, Key: Ord>(
    first: &[Row],
    second: &[Row],
    key: impl Fn(&Row) -> Key,
    mut put: impl FnMut(Row),
) {
    let (mut one, mut other) = (0, 0);
    while one < first.len() && other < second.len() {
        let (one_key, other_key) = (key(&first[one]), key(&second[other]));
        put(if one_key <= other_key { first[one] } else { second[other] });
        one += usize::from(one_key <= other_key);
        other += usize::from(other_key <= one_key);
    }
    first[one..].iter().chain(&second[other..]).for_each(|&row| put(row));
}
