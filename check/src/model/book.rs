//! The pages of a schedule. The open ones are run on a catalogue.

use super::{Catalogue, Edit, Entry, Ground};

/// The pages that a change undid and redid.
#[derive(Clone, Copy, Default, PartialEq, Eq, Debug)]
pub struct Pages {
    pub undone: usize,
    pub redone: usize,
}

#[derive(Clone, Default)]
pub struct Book {
    /// The edits after INIT: page 1 is the first.
    schedule: Vec<Edit>,
    catalogue: Catalogue,
    /// To each open page the entry that it touched, as it was before.
    journal: Vec<Entry>,
}

impl Book {
    pub fn schedule(&self) -> &[Edit] {
        &self.schedule
    }

    pub fn catalogue(&self) -> &Catalogue {
        &self.catalogue
    }

    pub fn journal(&self) -> &[Entry] {
        &self.journal
    }

    pub fn open_page(&self) -> usize {
        self.journal.len()
    }

    pub fn last_page(&self) -> usize {
        self.schedule.len()
    }

    /// Moves by a signed number of pages.
    pub fn turn(&mut self, pages: i32) -> Result<(), Ground> {
        let page = self.open_page() as i64 + i64::from(pages);
        match usize::try_from(page) {
            Ok(page) if page <= self.last_page() => {
                self.open(page);
                Ok(())
            }
            _ => Err(Ground::Turn),
        }
    }

    /// Takes a new schedule and opens its last page; the pages that the old open
    /// part and the new schedule begin with in common stay as they are. One name
    /// has one body in both.
    pub fn change(&mut self, schedule: Vec<Edit>) -> Pages {
        let old_open = &self.schedule[..self.open_page()];
        let same = |(old, new): &(&Edit, &Edit)| old.name == new.name;
        let common = old_open.iter().zip(&schedule).take_while(same).count();
        let undone = self.open_page() - common;
        self.open(common);
        self.schedule = schedule;
        self.open(self.last_page());
        Pages { undone, redone: self.last_page() - common }
    }

    /// Undoes or runs edits until this page is open.
    fn open(&mut self, page: usize) {
        while self.journal.len() > page {
            let before = self.journal.pop().expect("a page is open");
            self.catalogue.undo(self.schedule[self.journal.len()].body, before);
        }
        for edit in &self.schedule[self.journal.len()..page] {
            self.journal.push(self.catalogue.run(edit.body));
        }
    }
}
