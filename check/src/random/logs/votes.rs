//! Rolls, elections and adoptions.

use super::super::tables::spoil;
use super::Maker;
use crate::model::{Constraint, Edit, Record, Tables, BENCHES};

impl Maker {
    pub(super) fn any_vote(&mut self) {
        match self.random.one_in(3) {
            true => self.close_vote(),
            false => self.vote(),
        }
    }

    fn vote(&mut self) {
        let base = self.world.decided_record(&mut self.random);
        let agreeing = self.random.pick(&[30, 60, 90]);
        for bench in 1..=BENCHES {
            let record = match self.random.percent(agreeing) {
                true => base.clone(),
                false => self.unlike(&base),
            };
            self.lend(bench, &Tables::from(&record));
        }
        if self.random.one_in(5) {
            self.lend_faulty(&base);
        }
        self.lend_roll();
        for _ in 0..self.random.between(1, 4) {
            self.vote_on(1);
        }
    }

    fn unlike(&mut self, base: &Record) -> Record {
        match self.random.below(4) {
            0 => Record::default(),
            1 => self.world.decided_record(&mut self.random),
            // Not decided, and not sound now and then.
            2 if self.random.one_in(4) => self.world.any_record(&mut self.random),
            _ => self.world.changed_record(base, &mut self.random),
        }
    }

    fn lend_faulty(&mut self, base: &Record) {
        let mut tables = Tables::from(base);
        spoil(&mut tables, &self.world, &mut self.random);
        let bench = self.random.between(1, BENCHES);
        self.lend(bench, &tables);
    }

    /// Few bundles of one edit, and many benches: while the rows of the roll come in,
    /// an election is won and open by turns.
    pub(super) fn close_vote(&mut self) {
        let edit = self.world.any_edit(&mut self.random);
        let rivals = [self.proposal_on(edit), self.proposal_on(edit)];
        for bench in 1..=BENCHES {
            let record = match self.random.below(5) {
                0 => self.proposal_on(edit),
                1 | 2 => rivals[0].clone(),
                _ => rivals[1].clone(),
            };
            self.lend(bench, &Tables::from(&record));
        }
        self.lend_roll();
        self.say(&format!("do=tally edit={}", edit.name));
        self.vote_on(1);
    }

    /// A bundle of the edit or none, which other proposals may have too.
    fn proposal_on(&mut self, edit: Edit) -> Record {
        let required = Constraint::required(edit.name);
        let other = Edit { body: self.world.any_body(&mut self.random), ..edit };
        let (edits, constraints) = match self.random.below(8) {
            0 => (vec![], vec![]),
            1 => (vec![edit], vec![]),
            2 => (vec![other], vec![required]),
            3 | 4 => (vec![edit], vec![Constraint::aborted(edit.name)]),
            5 => (self.beside(edit), vec![required]),
            _ => (vec![edit], vec![required]),
        };
        Record { edits, constraints }
    }

    /// The edit with others of the world, in order.
    fn beside(&mut self, edit: Edit) -> Vec<Edit> {
        let mut edits = self.world.some_edits(3, &mut self.random);
        edits.retain(|other| other.name != edit.name);
        edits.push(edit);
        edits.sort_unstable_by_key(|edit| edit.name);
        edits
    }

    /// All benches would do the contrary of what the bench has decided.
    pub(super) fn contrary_vote(&mut self) {
        let edits = &self.session.bench.record().edits;
        if edits.is_empty() {
            return self.add_edit();
        }
        let mut edit = self.random.pick(edits);
        if self.random.one_in(3) {
            edit.body = self.world.any_body(&mut self.random);
        }
        let decision = match self.random.one_in(3) {
            true => Constraint::required(edit.name),
            false => Constraint::aborted(edit.name),
        };
        let record = Record { edits: vec![edit], constraints: vec![decision] };
        for bench in 1..=BENCHES {
            self.lend(bench, &Tables::from(&record));
        }
        self.lend_sound_roll();
        self.say(&format!("do=adopt edit={}", edit.name));
    }

    pub(super) fn vote_on(&mut self, slot: usize) {
        let edit = self.lent_name(slot);
        let call = self.random.pick(&["elect", "winner", "tally", "adopt"]);
        self.say(&format!("do={call} edit={edit}"));
    }

    pub(super) fn lend_sound_roll(&mut self) {
        self.say("roll=none");
        let mut benches: Vec<usize> = (1..=BENCHES).collect();
        self.random.shuffle(&mut benches);
        benches.truncate(self.random.between(1, BENCHES));
        let most = self.random.pick(&[0, 1, 3, 100, 65_535]);
        for bench in benches {
            let weight = if self.random.one_in(5) { most } else { self.random.between(0, most) };
            self.say(&format!("roll={bench} weight={weight}"));
        }
    }

    pub(super) fn lend_roll(&mut self) {
        self.lend_sound_roll();
        let fault = match self.random.below(24) {
            0 => self.random.pick(&["roll=0 weight=1", "roll=9 weight=1", "roll=255 weight=0"]),
            1 => self.random.pick(&["roll=3 weight=2", "roll=8 weight=2"]),
            2 => return (1..=10).for_each(|bench| self.say(&format!("roll={bench} weight=1"))),
            3 => {
                self.random.pick(&["roll=256 weight=1", "roll=1 weight=65536", "roll=257 weight=3"])
            }
            4 => "roll=none",
            _ => return,
        };
        self.say(fault);
    }
}
