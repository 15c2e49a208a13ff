//! Records that are full, or almost.

use super::super::tables::{any_constraint, spoil, Recipe};
use super::Maker;
use crate::model::text::{write_constraint, write_edit};
use crate::model::{Constraint, ConstraintRow, Edit, EditRow, Record, Rule, Tables, BENCHES};

impl Maker {
    /// Fills the bench's record with edits or constraints up to the limits.
    pub(super) fn fill(&mut self) {
        let recipe = match self.random.one_in(2) {
            true => self.full_of_edits(),
            false => self.full_of_constraints(),
        };
        // What is decided at random is often not sound.
        let recipe = Recipe { decisions: 0, straight: true, ..recipe };
        let record = self.world.record(recipe, &mut self.random);
        self.lend_carefully(0, &Tables::from(&record));
        self.say("do=merge lent=0");
        self.say("ask=report");
    }

    /// As many edits as a record can take, one fewer, or more.
    fn full_of_edits(&mut self) -> Recipe {
        Recipe {
            edits: self.random.pick(&[126, 127, 127, 127, 127, 128, 130]),
            constraints: self.random.below(60),
            decisions: self.random.pick(&[0, 5, 20]),
            noncommuting: self.random.pick(&[0, 30]),
            straight: !self.random.one_in(12),
        }
    }

    /// As many constraints as a record can take, one fewer, or more.
    fn full_of_constraints(&mut self) -> Recipe {
        Recipe {
            edits: self.random.pick(&[30, 60, 127]),
            constraints: self.random.pick(&[511, 511, 512, 512, 512, 513, 515]),
            decisions: self.random.pick(&[0, 0, 5]),
            noncommuting: self.random.pick(&[20, 50]),
            straight: !self.random.one_in(12),
        }
    }

    pub(super) fn at_the_limits(&mut self) {
        match self.random.below(18) {
            0 => self.add_edit(),
            1..=3 => self.add_new_edit(),
            4 | 5 => self.add_constraint(),
            6 | 7 => self.add_known_constraint(),
            8 | 9 => self.merge_known(),
            10 | 11 => self.merge_a_new_row(),
            12 => self.vote_for_new(),
            13 => self.use_full_tables(),
            14 if self.random.one_in(3) => self.long_row(),
            14 => self.propose_and_vote(),
            15 | 16 => self.reasons_at_the_limits(),
            _ => self.lend_and_use(),
        }
    }

    /// An edit of the world that the bench doesn't have, if there is one.
    fn new_edit(&mut self) -> Edit {
        let record = self.session.bench.record();
        let is_new = |edit: &&Edit| !record.knows(edit.name);
        let edits: Vec<Edit> = self.world.edits.iter().filter(is_new).copied().collect();
        if edits.is_empty() {
            return self.world.any_edit(&mut self.random);
        }
        self.random.pick(&edits)
    }

    fn add_new_edit(&mut self) {
        let edit = self.new_edit();
        self.say_written(|line| write_edit(edit, line));
    }

    /// Merges rows of the bench and a new one in order, out of order or twice:
    /// 13, or 3 where it has no place.
    fn merge_a_new_row(&mut self) {
        let part = self.part_of_bench();
        let mut tables = Tables::from(&part);
        let times = self.random.between(1, 2);
        if self.random.one_in(3) {
            let edit = self.new_edit();
            tables.edits.extend(vec![EditRow::from(edit); times]);
        } else if let Some(constraint) = self.new_constraint(&part.edits) {
            tables.constraints.extend(vec![ConstraintRow::from(constraint); times]);
        }
        if self.random.one_in(2) {
            tables.edits.sort_unstable_by_key(|row| row.name);
            tables.constraints.sort_unstable();
        }
        let slot = self.slot();
        self.lend_carefully(slot, &tables);
        self.say(&format!("do=merge lent={slot}"));
    }

    /// A constraint between the edits that the bench doesn't have, if one is found.
    fn new_constraint(&mut self, edits: &[Edit]) -> Option<Constraint> {
        if edits.is_empty() {
            return None;
        }
        let recipe = self.full_of_constraints();
        let record = self.session.bench.record();
        let random = &mut self.random;
        let mut tries = (0..20).filter_map(|_| any_constraint(edits, recipe, random));
        tries.find(|&constraint| !record.has(constraint))
    }

    /// A constraint that is there needs no place; one that is almost the same does.
    fn add_known_constraint(&mut self) {
        let constraints = &self.session.bench.record().constraints;
        if constraints.is_empty() {
            return self.add_constraint();
        }
        let mut constraint = self.random.pick(constraints);
        if self.random.one_in(2) {
            constraint.rule = self.random.pick(&Rule::ALL);
        }
        self.say_written(|line| write_constraint(constraint, line));
    }

    /// An adoption that brings in an edit for which there may be no place.
    fn vote_for_new(&mut self) {
        let edit = self.new_edit();
        let record =
            Record { edits: vec![edit], constraints: vec![Constraint::required(edit.name)] };
        for bench in 1..=BENCHES {
            self.lend(bench, &Tables::from(&record));
        }
        self.lend_sound_roll();
        self.say(&format!("do=adopt edit={}", edit.name));
        self.say_written(|line| write_edit(edit, line));
    }

    fn use_full_tables(&mut self) {
        // The first proposal's faults are seen whatever the others hold.
        let slot = if self.random.one_in(2) { 1 } else { self.random.between(1, BENCHES) };
        let recipe = match self.random.one_in(2) {
            true => self.full_of_edits(),
            false => self.full_of_constraints(),
        };
        let mut tables = Tables::from(&self.world.record(recipe, &mut self.random));
        for _ in 0..self.random.below(3) {
            spoil(&mut tables, &self.world, &mut self.random);
        }
        self.lend_carefully(slot, &tables);
        let edit = self.lent_name(slot);
        self.say(&format!("do=merge lent={slot}"));
        self.say(&format!("do=bundle edit={edit} lent={slot}"));
        self.say(&format!("do=test lent={slot}"));
        self.say(&format!("do=why edit={edit} lent={slot}"));
        self.say(&format!("do=elect edit={edit}"));
        self.say(&format!("do=winner edit={edit}"));
        self.say(&format!("do=tally edit={edit}"));
        self.say(&format!("do=adopt edit={edit}"));
        self.propose_from(slot);
        self.say(&format!("lent={slot} rows=none"));
    }

    /// A row with as many names as are kept, and more.
    fn long_row(&mut self) {
        for _ in 0..self.random.between(120, 135) {
            let name = self.world.any_name(&mut self.random);
            self.say(&format!("row={name}"));
        }
        let slot = self.slot();
        self.test_row_on(slot);
    }
}
