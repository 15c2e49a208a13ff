//! The bench: a record, what is hidden of it, its pages and its catalogue.

use super::vote::{election, Election, RollRow, BENCHES};
use super::{Book, ConstraintRow, Edit, EditRow, Ground, Joining, Pages, Record, Sound, Tables};
use std::collections::BTreeSet;

#[derive(Clone, Default)]
pub struct Bench {
    record: Record,
    hidden: BTreeSet<u16>,
    book: Book,
}

impl Bench {
    pub fn record(&self) -> &Record {
        &self.record
    }

    pub fn hidden(&self) -> &BTreeSet<u16> {
        &self.hidden
    }

    pub fn book(&self) -> &Book {
        &self.book
    }

    pub fn add_edit(&mut self, row: EditRow) -> Result<Pages, Ground> {
        let mut joining = Joining::new(&self.record);
        joining.edit(row)?;
        let edit = joining.table.edits[0];
        let place = self.record.edits.binary_search_by_key(&edit.name, |edit| edit.name);
        if let Err(place) = place {
            self.record.edits.insert(place, edit);
        }
        Ok(self.change(&Sound::new(&self.record)?))
    }

    pub fn add_constraint(&mut self, row: ConstraintRow) -> Result<Pages, Ground> {
        let constraint = self.record.added_constraint(row)?;
        let new_place = self.record.constraints.binary_search(&constraint).err();
        if let Some(place) = new_place {
            self.record.constraints.insert(place, constraint);
        }
        match (Sound::new(&self.record), new_place) {
            (Ok(sound), _) => Ok(self.change(&sound)),
            (Err(ground), place) => {
                place.map(|place| self.record.constraints.remove(place));
                Err(ground)
            }
        }
    }

    pub fn merge(&mut self, tables: &Tables) -> Result<Pages, Ground> {
        let lent = Record::checked(tables, &self.record)?;
        self.unite(&lent)
    }

    /// Brings in a checked record, if the union is sound.
    fn unite(&mut self, lent: &Record) -> Result<Pages, Ground> {
        let union = self.record.union(lent);
        let sound = Sound::new(&union)?;
        self.record = union;
        Ok(self.change(&sound))
    }

    pub fn hide(&mut self, number: u32) -> Result<Pages, Ground> {
        let edit = self.record.named(number)?;
        let sound = Sound::new(&self.record)?;
        if sound.must(edit) || !self.hidden.insert(number as u16) {
            return Err(Ground::Hiding);
        }
        Ok(self.change(&sound))
    }

    pub fn show(&mut self, number: u32) -> Result<Pages, Ground> {
        self.record.named(number)?;
        if !self.hidden.remove(&(number as u16)) {
            return Err(Ground::Hiding);
        }
        Ok(self.change(&Sound::new(&self.record)?))
    }

    pub fn turn(&mut self, pages: i32) -> Result<(), Ground> {
        self.book.turn(pages)
    }

    /// The election on an edit; a won bundle is brought into the record.
    pub fn adopt(
        &mut self,
        proposals: &[Tables; BENCHES],
        roll: &[RollRow],
        number: u32,
    ) -> Result<(Election, Pages), Ground> {
        let election = election(proposals, roll, number)?;
        let Some(bundle) = &election.won else { return Ok((election, Pages::default())) };
        let rows = Record::checked(&Tables::from(bundle), &self.record)?;
        let pages = self.unite(&rows)?;
        Ok((election, pages))
    }

    /// What every change does: the schedule is made anew.
    fn change(&mut self, sound: &Sound) -> Pages {
        self.book.change(self.scheduled(sound))
    }

    fn scheduled(&self, sound: &Sound) -> Vec<Edit> {
        let mut hidden = vec![false; self.record.edits.len() + 1];
        for edit in self.hidden.iter().filter_map(|&name| self.record.index(name)) {
            hidden[edit] = true;
        }
        sound.schedule(&hidden)[1..].iter().map(|&edit| self.record.edits[edit - 1]).collect()
    }
}
