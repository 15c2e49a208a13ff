//! The entries of the chip places and what the edits do to them.

use super::{Body, Deed, Field, PLACES};

/// A place's entry. An absent one has blank cells.
#[derive(Clone, Copy, Default, PartialEq, Eq, Debug)]
pub struct Entry {
    pub present: bool,
    pub cells: [Option<u32>; 4],
}

impl Entry {
    /// The filled cells, in the order of the fields.
    pub fn filled(&self) -> impl Iterator<Item = (Field, u32)> + '_ {
        Field::ALL.into_iter().zip(self.cells).filter_map(|(field, cell)| Some((field, cell?)))
    }

    fn run(&mut self, deed: Deed) {
        match deed {
            Deed::Insert => self.present = true,
            Deed::Set { field, value } if self.present => self.cells[field as usize] = Some(value),
            Deed::Set { .. } => {}
            Deed::Remove => *self = Entry::default(),
        }
    }
}

#[derive(Clone, PartialEq, Eq, Debug)]
pub struct Catalogue {
    pub entries: [Entry; PLACES],
}

impl Default for Catalogue {
    fn default() -> Catalogue {
        Catalogue { entries: [Entry::default(); PLACES] }
    }
}

impl Catalogue {
    /// Runs an edit and gives the touched entry as it was before: with that the
    /// edit can be undone, whatever it did.
    pub fn run(&mut self, body: Body) -> Entry {
        let entry = &mut self.entries[usize::from(body.place)];
        let before = *entry;
        entry.run(body.deed);
        before
    }

    pub fn undo(&mut self, body: Body, before: Entry) {
        self.entries[usize::from(body.place)] = before;
    }
}
