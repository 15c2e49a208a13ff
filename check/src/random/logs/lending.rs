//! Lent records, and the calls that are lent one.

use super::super::tables::spoil;
use super::Maker;
use crate::lent::{constraint_line, constraint_text_line, edit_line, edit_text_line};
use crate::model::{Constraint, ConstraintRow, Edit, EditRow, Record, Sound, Tables};

impl Maker {
    /// Lends tables as a record, most often in place of what it was before.
    pub(super) fn lend(&mut self, slot: usize, tables: &Tables) {
        if !self.random.one_in(25) {
            let slot = self.said_slot(slot);
            self.say(&format!("lent={slot} rows=none"));
        }
        for row in &tables.edits {
            let slot = self.said_slot(slot);
            let line = self.line_of_edit(slot, row);
            self.say(&line);
        }
        for row in &tables.constraints {
            let slot = self.said_slot(slot);
            let line = self.line_of_constraint(slot, row);
            self.say(&line);
        }
    }

    /// A row is lent by its numbers or, if it has one, by its line of the text.
    fn line_of_edit(&mut self, slot: u32, row: &EditRow) -> String {
        let text = edit_text_line(slot, row).filter(|_| self.random.one_in(3));
        text.unwrap_or_else(|| edit_line(slot, row))
    }

    fn line_of_constraint(&mut self, slot: u32, row: &ConstraintRow) -> String {
        let text = constraint_text_line(slot, row).filter(|_| self.random.one_in(3));
        text.unwrap_or_else(|| constraint_line(slot, row))
    }

    pub(super) fn lend_bench(&mut self, slot: usize) {
        let slot = self.said_slot(slot);
        self.say(&format!("lent={slot} rows=bench"));
    }

    /// Lends large tables without damage, most of the time.
    pub(super) fn lend_carefully(&mut self, slot: usize, tables: &Tables) {
        self.careful = !self.random.one_in(10);
        self.lend(slot, tables);
        self.careful = false;
    }

    pub(super) fn lend_and_use(&mut self) {
        let slot = self.slot();
        if self.random.one_in(8) {
            self.lend_bench(slot);
        } else {
            let mut tables = Tables::from(&self.world.any_record(&mut self.random));
            while self.random.one_in(3) {
                spoil(&mut tables, &self.world, &mut self.random);
            }
            self.lend(slot, &tables);
        }
        for _ in 0..self.random.between(1, 3) {
            self.use_slot(slot);
        }
    }

    pub(super) fn use_slot(&mut self, slot: usize) {
        let said = self.said_slot(slot);
        match self.random.below(9) {
            0 | 1 => self.say(&format!("do=merge lent={said}")),
            2 => self.bundle(slot),
            3 => self.test_row_on(slot),
            4 => self.vote_on(slot),
            5 => self.propose_from(slot),
            6 => {
                let old = self.slot();
                self.propose(slot, old);
            }
            7 => self.ask_why(slot),
            _ => {
                let from = self.slot();
                self.propose(from, slot);
            }
        }
    }

    pub(super) fn lent_name(&mut self, slot: usize) -> u32 {
        let rows = &self.session.lent[slot].edits;
        if rows.is_empty() || self.random.one_in(8) {
            return self.name_for_call();
        }
        self.random.pick(rows).name
    }

    fn bundle(&mut self, slot: usize) {
        let (edit, said) = (self.lent_name(slot), self.said_slot(slot));
        self.say(&format!("do=bundle edit={edit} lent={said}"));
    }

    pub(super) fn test_row(&mut self) {
        let slot = self.slot();
        if self.random.one_in(2) {
            let record = self.world.any_record(&mut self.random);
            self.lend(slot, &Tables::from(&record));
        }
        self.test_row_on(slot);
    }

    /// A sound schedule of what is lent, if there is one, or something close.
    pub(super) fn test_row_on(&mut self, slot: usize) {
        if !self.random.one_in(10) {
            self.say("row=none");
            let mut row = self.row_of(slot);
            if self.random.one_in(2) {
                self.spoil_row(slot, &mut row);
            }
            for name in row {
                self.say(&format!("row={name}"));
            }
            if self.random.one_in(30) {
                self.say("row=4294967296");
            }
        }
        let said = self.said_slot(slot);
        self.say(&format!("do=test lent={said}"));
    }

    fn row_of(&mut self, slot: usize) -> Vec<u32> {
        let Ok(record) = Record::lent(&self.session.lent[slot]) else { return vec![0] };
        let Ok(sound) = Sound::new(&record) else { return vec![0] };
        let name = |index: usize| match index {
            0 => 0,
            index => u32::from(record.edits[index - 1].name),
        };
        sound.schedule_with_nothing_hidden().into_iter().map(name).collect()
    }

    fn spoil_row(&mut self, slot: usize, row: &mut Vec<u32>) {
        let place = self.random.below(row.len());
        match self.random.below(8) {
            0 => drop(row.remove(place)),
            1 => row.swap(0, place),
            2 => row.insert(place, self.random.odd_number()),
            3 => row.truncate(place),
            4 => row.insert(place, row[row.len() - 1]),
            // The lower 16 bits are those of a name that would stand well there.
            5 => row[place] += 65_536,
            6 => row.push(self.left_out(slot, row)),
            _ => self.random.shuffle(&mut row[1..]),
        }
    }

    /// An edit that isn't in the row, often for a good reason.
    fn left_out(&mut self, slot: usize, row: &[u32]) -> u32 {
        let names = self.session.lent[slot].edits.iter().map(|edit| edit.name);
        let names: Vec<u32> = names.filter(|name| !row.contains(name)).collect();
        if names.is_empty() {
            return self.lent_name(slot);
        }
        self.random.pick(&names)
    }

    /// Merges what the bench knows already, but for a row or two.
    pub(super) fn merge_known(&mut self) {
        let mut tables = Tables::from(&self.part_of_bench());
        for _ in 0..self.random.between(0, 2) {
            spoil(&mut tables, &self.world, &mut self.random);
        }
        let slot = self.slot();
        self.lend(slot, &tables);
        self.say(&format!("do=merge lent={slot}"));
    }

    /// A few edits of the bench that stand together, and their constraints.
    pub(super) fn part_of_bench(&mut self) -> Record {
        let record = self.session.bench.record();
        let begin = self.random.below(record.edits.len() + 1);
        let count = self.random.between(1, 8);
        let edits: Vec<Edit> = record.edits[begin..].iter().take(count).copied().collect();
        let part = Record { edits, constraints: Vec::new() };
        let inside = |row: &&Constraint| part.knows(row.left) && part.knows(row.right);
        let constraints = record.constraints.iter().filter(inside).copied().collect();
        Record { constraints, ..part }
    }

    /// One of the calls that take what happens to be lent.
    pub(super) fn repeat_call(&mut self) {
        let slot = self.slot();
        self.use_slot(slot);
    }
}
