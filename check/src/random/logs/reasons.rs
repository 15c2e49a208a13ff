//! Questions why edits must stand, or can never stand.

use super::super::layered::layered_record;
use super::super::tables::spoil;
use super::Maker;
use crate::model::Tables;

impl Maker {
    pub(super) fn any_reason(&mut self) {
        let slot = self.slot();
        match self.random.below(10) {
            0 | 1 => self.lend_bench(slot),
            2 => {}
            3 => {
                let mut tables = Tables::from(&self.world.any_record(&mut self.random));
                spoil(&mut tables, &self.world, &mut self.random);
                self.lend(slot, &tables);
            }
            _ => {
                let most = self.world.edits.len().min(30);
                let fewer = self.random.between(1, most);
                let edits = self.random.pick(&[most, fewer]);
                self.lend_layered(slot, edits);
            }
        }
        for _ in 0..self.random.between(2, 6) {
            self.ask_why(slot);
        }
    }

    /// Records with the longest reasons, and with the most.
    pub(super) fn reasons_at_the_limits(&mut self) {
        let slot = self.slot();
        let edits = self.random.pick(&[126, 127, 127, 127, 127, 128, 130]);
        self.lend_layered(slot, edits);
        for _ in 0..20 {
            self.ask_why(slot);
        }
        self.say(&format!("lent={slot} rows=none"));
    }

    fn lend_layered(&mut self, slot: usize, edits: usize) {
        let edits = self.world.some_edits(edits, &mut self.random);
        let record = layered_record(edits, &mut self.random);
        self.lend_carefully(slot, &Tables::from(&record));
    }

    pub(super) fn ask_why(&mut self, slot: usize) {
        let (edit, said) = (self.lent_name(slot), self.said_slot(slot));
        self.say(&format!("do=why edit={edit} lent={said}"));
    }
}
