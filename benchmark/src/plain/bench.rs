//! The bench: a record, what is hidden of it, its pages and its catalogue.

use super::election::{election, Election};
use super::graph::SIZE_LIMIT;
use super::joining::Joining;
use super::record::Record;
use super::sound::Sound;
use check::model::{
    Book, ConstraintRow, Edit, EditRow, Ground, Pages, RollRow, Tables, BENCHES, CONSTRAINT_LIMIT,
};

pub struct Bench {
    record: Record,
    /// The record's judgement, for the calls that leave the record as it is.
    sound: Sound,
    /// Names in order.
    hidden: Vec<u16>,
    book: Book,
}

impl Default for Bench {
    fn default() -> Bench {
        let record = Record::default();
        let sound = Sound::new(&record).expect("the empty record is sound");
        Bench { record, sound, hidden: Vec::new(), book: Book::default() }
    }
}

impl Bench {
    pub fn record(&self) -> &Record {
        &self.record
    }

    pub fn sound(&self) -> &Sound {
        &self.sound
    }

    pub fn hidden(&self) -> &[u16] {
        &self.hidden
    }

    pub fn book(&self) -> &Book {
        &self.book
    }

    pub fn add_edit(&mut self, row: EditRow) -> Result<Pages, Ground> {
        let edit = row.edit()?;
        Joining::new(&self.record).edit(edit)?;
        if self.record.edit(edit.name).is_none() {
            self.record.insert_edit(edit);
        }
        self.sound = Sound::new(&self.record)?;
        Ok(self.change())
    }

    pub fn add_constraint(&mut self, row: ConstraintRow) -> Result<Pages, Ground> {
        let constraint = row.constraint()?;
        let new_place = self.record.constraints.binary_search(&constraint).err();
        if new_place.is_some() && self.record.constraints.len() >= CONSTRAINT_LIMIT {
            return Err(Ground::NoPlace);
        }
        self.record.link(constraint)?;
        if constraint.is_decision() {
            return Err(Ground::Decision);
        }
        if let Some(place) = new_place {
            self.record.constraints.insert(place, constraint);
            match Sound::new(&self.record) {
                Ok(sound) => self.sound = sound,
                Err(ground) => {
                    self.record.constraints.remove(place);
                    return Err(ground);
                }
            }
        }
        Ok(self.change())
    }

    pub fn merge(&mut self, tables: &Tables) -> Result<Pages, Ground> {
        let lent = Joining::of(tables, &self.record)?.record;
        self.unite(&lent)
    }

    /// Brings in a checked record, if the union is sound.
    fn unite(&mut self, lent: &Record) -> Result<Pages, Ground> {
        let union = self.record.union(lent);
        self.sound = Sound::new(&union)?;
        self.record = union;
        Ok(self.change())
    }

    pub fn hide(&mut self, number: u32) -> Result<Pages, Ground> {
        let edit = self.record.named(number)?;
        let name = number as u16;
        match self.hidden.binary_search(&name) {
            Err(place) if !self.sound.must(edit) => self.hidden.insert(place, name),
            _ => return Err(Ground::Hiding),
        }
        Ok(self.change())
    }

    pub fn show(&mut self, number: u32) -> Result<Pages, Ground> {
        self.record.named(number)?;
        let place = self.hidden.binary_search(&(number as u16)).map_err(|_| Ground::Hiding)?;
        self.hidden.remove(place);
        Ok(self.change())
    }

    pub fn turn(&mut self, pages: i32) -> Result<(), Ground> {
        self.book.turn(pages)
    }

    /// The election on an edit; a won bundle is brought into the record.
    pub fn adopt(
        &mut self,
        proposals: [&Tables; BENCHES],
        roll: &[RollRow],
        number: u32,
    ) -> Result<(Election, Pages), Ground> {
        let election = election(proposals, roll, number)?;
        let Some(bundle) = &election.won else { return Ok((election, Pages::default())) };
        let mut joining = Joining::new(&self.record);
        for &edit in &bundle.edits {
            joining.edit(edit)?;
        }
        for &constraint in &bundle.constraints {
            joining.constraint(constraint)?;
        }
        let lent = joining.record;
        let pages = self.unite(&lent)?;
        Ok((election, pages))
    }

    /// What every change does: the schedule is made anew.
    fn change(&mut self) -> Pages {
        self.book.change(self.scheduled())
    }

    fn scheduled(&self) -> Vec<Edit> {
        let mut hidden = [false; SIZE_LIMIT];
        self.hidden.iter().for_each(|&name| hidden[self.record.known_index(name)] = true);
        let schedule = self.sound.schedule(&hidden);
        schedule[1..].iter().map(|&edit| self.record.edits[usize::from(edit) - 1]).collect()
    }
}
