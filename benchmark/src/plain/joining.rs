//! Rows that join a record, each judged as it comes.

use super::graph::{Graph, Link};
use super::record::Record;
use super::sound::Sound;
use check::model::{Constraint, Edit, Ground, Tables, CONSTRAINT_LIMIT, EDIT_LIMIT};
use std::sync::LazyLock;

/// What a record joins that is lent alone.
static NOTHING: LazyLock<Record> = LazyLock::new(Record::default);

pub struct Joining<'base> {
    base: &'base Record,
    /// The rows so far.
    pub record: Record,
    /// Their constraints by the indexes of their edits.
    links: Vec<Link>,
    /// How many of them the joined record doesn't have.
    new_edits: usize,
    new_constraints: usize,
    /// How many constraints of the joined record come before the last row: rows
    /// ascend, so that the two tables are gone through side by side.
    passed: usize,
}

impl Joining<'static> {
    /// No rows yet, of a record that joins none.
    pub fn alone() -> Joining<'static> {
        Joining::new(&NOTHING)
    }

    /// The lent record, if none of its rows has a fault.
    pub fn lent(tables: &Tables) -> Result<Joining<'static>, Ground> {
        Joining::of(tables, &NOTHING)
    }
}

impl<'base> Joining<'base> {
    pub fn new(base: &'base Record) -> Joining<'base> {
        let (record, links) = (Record::default(), Vec::new());
        Joining { base, record, links, new_edits: 0, new_constraints: 0, passed: 0 }
    }

    /// The lent record that is to join another, if none of its rows has a fault.
    pub fn of(tables: &Tables, base: &'base Record) -> Result<Joining<'base>, Ground> {
        let mut joining = Joining::new(base);
        joining.record.edits.reserve(tables.edits.len());
        joining.record.constraints.reserve(tables.constraints.len());
        joining.links.reserve(tables.constraints.len());
        for &row in &tables.edits {
            joining.edit(row.edit()?)?;
        }
        for &row in &tables.constraints {
            joining.constraint(row.constraint()?)?;
        }
        Ok(joining)
    }

    /// The rows as a record of their own, if it is sound.
    pub fn judged(self) -> Result<(Record, Sound), Ground> {
        let sound = Sound::of(Graph::new(self.record.size(), self.links))?;
        Ok((self.record, sound))
    }

    /// The next edit; the lowest number that applies to it is its fault.
    pub fn edit(&mut self, edit: Edit) -> Result<(), Ground> {
        // A repeated name is out of order, and neither new nor known here.
        if self.record.index(edit.name).is_some() {
            return Err(Ground::Order);
        }
        let is_new = match self.base.edit(edit.name) {
            Some(known) if known.body != edit.body => return Err(Ground::OtherBody),
            Some(_) => false,
            None if self.base.edits.len() + self.new_edits < EDIT_LIMIT => true,
            None => return Err(Ground::NoPlace),
        };
        let follows = self.record.edits.last().is_none_or(|last| last.name < edit.name);
        if !follows || !self.record.constraints.is_empty() {
            return Err(Ground::Order);
        }
        self.new_edits += usize::from(is_new);
        self.record.push_edit(edit);
        Ok(())
    }

    /// The next constraint. It knows only the edits that came before it here.
    pub fn constraint(&mut self, constraint: Constraint) -> Result<(), Ground> {
        let follows = self.record.constraints.last().is_none_or(|last| *last < constraint);
        let is_new = match follows {
            true => !self.base_has_next(constraint),
            false => !self.base.has(constraint) && !self.record.has(constraint),
        };
        if is_new && self.base.constraints.len() + self.new_constraints >= CONSTRAINT_LIMIT {
            return Err(Ground::NoPlace);
        }
        let link = self.record.link(constraint)?;
        if !follows {
            return Err(Ground::Order);
        }
        self.new_constraints += usize::from(is_new);
        self.record.constraints.push(constraint);
        self.links.push(link);
        Ok(())
    }

    /// Whether the joined record has a constraint that follows all before it.
    fn base_has_next(&mut self, constraint: Constraint) -> bool {
        let rest = &self.base.constraints[self.passed..];
        self.passed += rest.iter().take_while(|other| **other < constraint).count();
        self.base.constraints.get(self.passed) == Some(&constraint)
    }
}
