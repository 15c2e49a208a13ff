//! Calls on the bench, questions and suggestions.

use super::Maker;
use crate::form::edit_text;
use crate::model::text::write_constraint;
use crate::model::{Constraint, Edit, EditRow, Record, Rule, Tables};

impl Maker {
    pub(super) fn on_the_bench(&mut self) {
        match self.random.below(12) {
            0..=3 => self.add_edit(),
            4..=6 => self.add_constraint(),
            7 => self.hide(),
            8 => self.show(),
            9 | 10 => self.turn(),
            _ => self.ask(),
        }
    }

    pub(super) fn add_edit(&mut self) {
        let mut edit = self.world.any_edit(&mut self.random);
        if self.random.one_in(10) {
            edit.body = self.world.any_body(&mut self.random);
        }
        let mut row = EditRow::from(edit);
        match self.random.below(20) {
            0 => row.name = self.random.odd_number(),
            1 => row.place = self.random.odd_number(),
            2 => row.name = self.random.pick(&[0, 256, 512, 768, 2048, 2303, 2304, 2305]),
            3 => row.place = self.random.pick(&[63, 64]),
            _ => {}
        }
        self.say(&edit_text(&row).expect("only the name and the place are odd"));
    }

    pub(super) fn add_constraint(&mut self) {
        let (left, mut right) = (self.name_for_call(), self.name_for_call());
        if self.random.one_in(12) {
            right = self.random.pick(&[0, left]);
        }
        let rule = self.random.pick(&Rule::ALL);
        // Half of the noncommuting pairs would have the higher name on the left.
        let swap = rule == Rule::Noncommuting && left > right && !self.random.one_in(6);
        let (left, right) = if swap { (right, left) } else { (left, right) };
        self.say(&format!("left={left} rule={} right={right}", rule.word()));
    }

    fn hide(&mut self) {
        let name = self.name_for_call();
        self.say(&format!("do=hide edit={name}"));
        if self.random.one_in(6) {
            self.say(&format!("do=hide edit={name}"));
        }
    }

    fn show(&mut self) {
        let hidden: Vec<u16> = self.session.bench.hidden().iter().copied().collect();
        let name = match hidden.is_empty() || self.random.one_in(4) {
            true => self.name_for_call(),
            false => u32::from(self.random.pick(&hidden)),
        };
        self.say(&format!("do=show edit={name}"));
    }

    /// Within the pages, to both ends, one page past them, and far away.
    fn turn(&mut self) {
        let open = self.session.bench.book().open_page() as i64;
        let last = self.session.bench.book().last_page() as i64;
        let far = [2_147_483_647, 2_147_483_648, 2_147_483_649, 4_294_967_295, 4_294_967_296];
        let pages = match self.random.below(12) {
            0 => -open,
            1 => last - open,
            2 => -open - 1,
            3 => last - open + 1,
            4 => self.random.pick(&far),
            5 => -self.random.pick(&far),
            6 => 0,
            _ => self.random.between(0, last as usize) as i64 - open,
        };
        let pages =
            if pages == 0 { self.random.pick(&["0", "-0"]).to_string() } else { pages.to_string() };
        self.say(&format!("do=turn pages={pages}"));
    }

    pub(super) fn ask(&mut self) {
        let questions = ["text", "report", "hidden", "schedule", "catalogue", "journal", "page"];
        let question = self.random.pick(&questions);
        self.say(&format!("ask={question}"));
    }

    pub(super) fn suggest(&mut self) {
        for _ in 0..self.random.between(1, 4) {
            let first = self.name_for_call();
            let second = match self.random.one_in(4) {
                true => self.name_for_call(),
                false => self.name_beside(first),
            };
            let case = if self.random.one_in(10) {
                self.random.odd_number()
            } else {
                self.random.below(2) as u32
            };
            self.say(&format!("do=suggest first={first} second={second} case={case}"));
        }
    }

    /// Another edit of this one's place, if the bench has any: no others suggest
    /// anything.
    fn name_beside(&mut self, name: u32) -> u32 {
        let edits = &self.session.bench.record().edits;
        let place = edits.iter().find(|edit| u32::from(edit.name) == name).map(|it| it.body.place);
        let beside = |it: &&Edit| Some(it.body.place) == place && u32::from(it.name) != name;
        let others: Vec<u16> = edits.iter().filter(beside).map(|it| it.name).collect();
        match others.is_empty() {
            true => self.name_for_call(),
            false => u32::from(self.random.pick(&others)),
        }
    }

    /// An edit is hidden, then a merge makes it a must.
    pub(super) fn hidden_must(&mut self) {
        let edits = &self.session.bench.record().edits;
        if edits.is_empty() {
            return self.add_edit();
        }
        let edit = self.random.pick(edits);
        self.say(&format!("do=hide edit={}", edit.name));
        let record =
            Record { edits: vec![edit], constraints: vec![Constraint::required(edit.name)] };
        let slot = self.slot();
        self.lend(slot, &Tables::from(&record));
        self.say(&format!("do=merge lent={slot}"));
        self.say("ask=hidden");
        self.say("ask=schedule");
        let call = self.random.pick(&["hide", "show"]);
        self.say(&format!("do={call} edit={}", edit.name));
    }

    /// A chain of notafter through edits of the bench, sometimes closed to a ring.
    pub(super) fn chain(&mut self) {
        let mut names: Vec<u16> =
            self.session.bench.record().edits.iter().map(|edit| edit.name).collect();
        self.random.shuffle(&mut names);
        names.truncate(self.random.between(2, 12));
        if names.len() > 2 && self.random.one_in(3) {
            names.push(names[0]);
        }
        let rule = self.random.pick(&[Rule::NotAfter, Rule::NotAfter, Rule::Enables]);
        for pair in names.windows(2) {
            let constraint = Constraint { left: pair[0], rule, right: pair[1] };
            self.say_written(|line| write_constraint(constraint, line));
        }
    }
}
