//! Proposals made from lent records.

use super::super::tables::{any_constraint, require_a_ring, Recipe, ROOM};
use super::Maker;
use crate::model::{propose, Constraint, ConstraintRow, Edit, Record, Tables, BENCHES};
use std::collections::BTreeSet;

impl Maker {
    /// Benches make their proposals of one record and vote on them.
    pub(super) fn propose_and_vote(&mut self) {
        let from = self.slot();
        if self.random.one_in(3) {
            let record = self.world.any_record(&mut self.random);
            self.lend(from, &Tables::from(&record));
        } else {
            self.lend_bench(from);
        }
        let anew = self.random.one_in(2);
        for bench in (1..=BENCHES).filter(|&bench| bench != from) {
            if anew {
                self.say(&format!("lent={bench} rows=none"));
            }
            self.say(&format!("do=propose lent={from} old={bench} edits=127 rules=512 keep=yes"));
        }
        if self.random.one_in(2) {
            self.lend_roll();
        }
        for _ in 0..self.random.between(1, 3) {
            let slot = self.random.between(1, BENCHES);
            self.vote_on(slot);
        }
        // The bench goes on, and old proposals may not be kept.
        for _ in 0..self.random.below(4) {
            self.on_the_bench();
        }
        self.propose_from(from);
    }

    pub(super) fn propose_from(&mut self, from: usize) {
        let old = self.slot();
        if self.random.one_in(3) {
            self.lend_bench(from);
        }
        self.propose(from, old);
    }

    /// A proposal into an output that has exactly enough rows, too few, or many.
    pub(super) fn propose(&mut self, from: usize, old: usize) {
        let made = propose(&self.session.lent[from], &self.session.lent[old], ROOM);
        let (edits, rules) =
            made.map_or((127, 512), |made| (made.edits.len(), made.constraints.len()));
        let (edits, rules) = match self.random.below(8) {
            0 => (edits as u32, rules as u32),
            1 => ((edits as u32).saturating_sub(1), rules as u32),
            2 => (edits as u32, (rules as u32).saturating_sub(1)),
            3 => (self.random.odd_number(), self.random.odd_number()),
            _ => (127, 512),
        };
        let keep = self.random.pick(&["yes", "no"]);
        let (from, old) = (self.said_slot(from), self.said_slot(old));
        self.say(&format!(
            "do=propose lent={from} old={old} edits={edits} rules={rules} keep={keep}"
        ));
    }

    /// Proposals that lack place for their rows, before the schedule or after it.
    pub(super) fn crowded_proposal(&mut self) {
        match self.random.below(4) {
            0 => self.just_full_proposal(),
            1 => self.just_full_ring(),
            _ => self.any_crowded_proposal(),
        }
    }

    fn any_crowded_proposal(&mut self) {
        let recipe = Recipe {
            edits: self.random.between(30, 45),
            constraints: self.random.between(180, 512),
            decisions: self.random.pick(&[0, 0, 4]),
            noncommuting: self.random.pick(&[50, 90, 100]),
            straight: !self.random.one_in(4),
        };
        let record = self.world.record(recipe, &mut self.random);
        let (from, old) = (self.slot(), self.slot());
        let mut tables = Tables::from(&record);
        if self.random.one_in(3) {
            require_a_ring(&mut tables, &record.edits[..2]);
        }
        self.lend_carefully(from, &tables);
        if from != old {
            self.require_some(old, record.edits);
        }
        self.propose(from, old);
        self.use_slot(from);
    }

    /// All edits stand, each is marked, and with that the record is full, or is
    /// one row short of it or past it.
    fn just_full_proposal(&mut self) {
        let edits = self.random.between(30, 40);
        let constraints = self.random.pick(&[511, 512, 512, 513]) - edits;
        let recipe = Recipe { edits, constraints, decisions: 0, noncommuting: 0, straight: true };
        let record = self.world.record(recipe, &mut self.random);
        self.lend_carefully(0, &Tables::from(&record));
        self.say("lent=1 rows=none");
        self.propose(0, 1);
    }

    /// The rows before the schedule just have place, or just not, in a record
    /// that isn't sound: 8 or 3.
    fn just_full_ring(&mut self) {
        let edits = self.world.some_edits(40, &mut self.random);
        let (settled, others) = edits.split_first().expect("the world has edits");
        let partners = self.random.between(1, 30);
        let full = self.random.pick(&[511, 512, 512, 513, 514]) - 1 - partners;
        let recipe =
            Recipe { edits: 39, constraints: 1, decisions: 0, noncommuting: 0, straight: true };
        let mut tables = Tables::from(&Record { edits: edits.clone(), constraints: Vec::new() });
        require_a_ring(&mut tables, &others[..2]);
        let pair = |other: &Edit| Constraint::noncommuting(settled.name, other.name);
        let pairs = others.iter().take(partners).map(pair);
        let mut rows: BTreeSet<ConstraintRow> = tables.constraints.into_iter().collect();
        rows.extend(pairs.map(ConstraintRow::from));
        while rows.len() < full {
            let row = any_constraint(others, recipe, &mut self.random);
            rows.extend(row.map(ConstraintRow::from));
        }
        tables.constraints = rows.into_iter().collect();
        self.lend_carefully(0, &tables);
        let constraints = vec![Constraint::required(settled.name)];
        let old = Record { edits: vec![*settled], constraints };
        self.lend_carefully(1, &Tables::from(&old));
        self.propose(0, 1);
    }

    /// Lends a record in which some of the edits are required.
    fn require_some(&mut self, slot: usize, mut edits: Vec<Edit>) {
        self.random.shuffle(&mut edits);
        edits.truncate(self.random.below(edits.len()));
        edits.sort_unstable_by_key(|edit| edit.name);
        let constraints = edits.iter().map(|edit| Constraint::required(edit.name)).collect();
        self.lend_carefully(slot, &Tables::from(&Record { edits, constraints }));
    }
}
