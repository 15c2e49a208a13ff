//! A call log on one bench.

use super::bench::Bench;
use super::bundle::Bundles;
use super::election::{election, tally, Outcome};
use super::joining::Joining;
use super::order::{self, Change, Lend, Order, Question};
use super::print::{self, Print};
use super::proposal::propose;
use super::reason::explain;
use super::sound::is_sound_schedule;
use check::lent::{
    push_roll, push_within, record_number, LENT_CONSTRAINT_LIMIT, LENT_EDIT_LIMIT, ROW_LIMIT,
};
use check::model::{suggest_named, Ground, Pages, RollRow, Tables, BENCHES};

/// Appends the answers to a log.
pub fn replay(log: &[u8], out: &mut Vec<u8>) {
    let mut session = Session::default();
    for line in log.split_inclusive(|&byte| byte == b'\n') {
        session.line(line, out);
    }
}

/// A bench and what is lent to its calls.
#[derive(Default)]
pub struct Session {
    bench: Bench,
    /// 1 to 8 are the proposals by bench, 0 is loose.
    lent: [Tables; BENCHES + 1],
    roll: Vec<RollRow>,
    row: Vec<u32>,
    lines: u64,
}

impl Session {
    /// Runs one line, its end included, and appends its answer.
    pub fn line(&mut self, line: &[u8], out: &mut Vec<u8>) {
        self.lines += 1;
        let answered = order::read(line).and_then(|order| self.run(order, out));
        if let Err(ground) = answered {
            print::refusal(ground, self.lines, out);
        }
    }

    /// Nothing is printed before the order is accepted.
    fn run(&mut self, order: Order, out: &mut Vec<u8>) -> Result<(), Ground> {
        match order {
            Order::Lend(lend) => self.lend(lend),
            Order::Change(change) => {
                let pages = self.change(change)?;
                self.print_change(pages, out);
                Ok(())
            }
            Order::Turn { pages } => self.turn(pages, out),
            Order::Adopt { edit } => self.adopt(edit, out),
            Order::Elect { edit } => self.elect(edit, out),
            Order::Bundle { edit, lent } => self.bundle(edit, lent, out),
            Order::Propose { lent, old, room, keep } => self.propose(lent, old, room, keep, out),
            Order::Suggest { first, second, case } => self.suggest(first, second, case, out),
            Order::Test { lent } => self.test(lent, out),
            Order::Winner { edit } => self.winner(edit, out),
            Order::Tally { edit } => self.tally(edit, out),
            Order::Why { edit, lent } => explain(&self.lent[record_number(lent)?], edit, out),
            Order::Ask(question) => {
                self.answer(question, out);
                Ok(())
            }
        }
    }

    fn lend(&mut self, lend: Lend) -> Result<(), Ground> {
        match lend {
            Lend::Edit { lent, row } => {
                push_within(&mut self.lent_mut(lent)?.edits, row, LENT_EDIT_LIMIT)?;
            }
            Lend::Constraint { lent, row } => {
                push_within(&mut self.lent_mut(lent)?.constraints, row, LENT_CONSTRAINT_LIMIT)?;
            }
            Lend::None { lent } => {
                let lent = self.lent_mut(lent)?;
                lent.edits.clear();
                lent.constraints.clear();
            }
            Lend::Bench { lent } => {
                let number = record_number(lent)?;
                self.lent[number] = self.bench.record().tables();
            }
            Lend::Seat { bench, weight } => push_roll(&mut self.roll, bench, weight)?,
            Lend::NoRoll => self.roll.clear(),
            Lend::Name(name) => push_within(&mut self.row, name, ROW_LIMIT)?,
            Lend::NoRow => self.row.clear(),
        }
        Ok(())
    }

    fn change(&mut self, change: Change) -> Result<Pages, Ground> {
        match change {
            Change::Edit(row) => self.bench.add_edit(row),
            Change::Constraint(row) => self.bench.add_constraint(row),
            Change::Merge { lent } => self.bench.merge(&self.lent[record_number(lent)?]),
            Change::Hide { edit } => self.bench.hide(edit),
            Change::Show { edit } => self.bench.show(edit),
        }
    }

    fn lent_mut(&mut self, number: u32) -> Result<&mut Tables, Ground> {
        Ok(&mut self.lent[record_number(number)?])
    }

    fn print_change(&self, pages: Pages, out: &mut Vec<u8>) {
        out.text("undone=").number(pages.undone).text(" redone=").number(pages.redone).text(" ");
        self.print_page(out);
    }

    fn print_page(&self, out: &mut Vec<u8>) {
        let book = self.bench.book();
        out.text("open=").number(book.open_page());
        out.text(" last=").number(book.last_page()).text("\n");
    }

    fn turn(&mut self, pages: i64, out: &mut Vec<u8>) -> Result<(), Ground> {
        self.bench.turn(i32::try_from(pages).map_err(|_| Ground::Range)?)?;
        self.print_change(Pages::default(), out);
        Ok(())
    }

    fn adopt(&mut self, edit: u32, out: &mut Vec<u8>) -> Result<(), Ground> {
        let (election, pages) = self.bench.adopt(proposals(&self.lent), &self.roll, edit)?;
        print_outcome(election.outcome, out);
        out.text(" ");
        self.print_change(pages, out);
        Ok(())
    }

    fn elect(&self, edit: u32, out: &mut Vec<u8>) -> Result<(), Ground> {
        let election = election(proposals(&self.lent), &self.roll, edit)?;
        print_outcome(election.outcome, out);
        out.text("\n");
        Ok(())
    }

    fn winner(&self, edit: u32, out: &mut Vec<u8>) -> Result<(), Ground> {
        let election = election(proposals(&self.lent), &self.roll, edit)?;
        print_outcome(election.outcome, out);
        out.text("\n");
        if let Some(bundle) = &election.won {
            let (must, never) = bundle.verdict(edit as u16);
            out.text("edit=").number(edit).text(" must=").yes_or_no(must);
            out.text(" never=").yes_or_no(never).text(" ");
            print::rows(&bundle.edits, &bundle.constraints, out);
        }
        Ok(())
    }

    fn tally(&self, edit: u32, out: &mut Vec<u8>) -> Result<(), Ground> {
        for outcome in tally(proposals(&self.lent), &self.roll, edit)? {
            print_outcome(outcome, out);
            out.text("\n");
        }
        Ok(())
    }

    fn bundle(&self, edit: u32, lent: u32, out: &mut Vec<u8>) -> Result<(), Ground> {
        let joining = Joining::lent(&self.lent[record_number(lent)?])?;
        let edit = joining.record.named(edit)?;
        let (record, sound) = joining.judged()?;
        let bundle = Bundles::new(&record, &sound).of(edit);
        out.text("eligible=").yes_or_no(bundle.is_eligible()).text(" ");
        print::rows(&bundle.edits, &bundle.constraints, out);
        Ok(())
    }

    fn propose(
        &mut self,
        lent: u32,
        old: u32,
        room: (u32, u32),
        keep: bool,
        out: &mut Vec<u8>,
    ) -> Result<(), Ground> {
        let (from, old) = (record_number(lent)?, record_number(old)?);
        let proposal = propose(&self.lent[from], &self.lent[old], room)?;
        print::rows(&proposal.edits, &proposal.constraints, out);
        if keep {
            self.lent[old] = proposal.tables();
        }
        Ok(())
    }

    fn suggest(&self, first: u32, second: u32, case: u32, out: &mut Vec<u8>) -> Result<(), Ground> {
        let record = self.bench.record();
        let edit = |number| record.named(number).map(|index| record.edits[index - 1]);
        let rows = suggest_named(edit(first), edit(second), case)?;
        out.text("rules=").number(rows.len()).text("\n");
        rows.iter().for_each(|row| print::constraint(row, out));
        Ok(())
    }

    fn test(&self, lent: u32, out: &mut Vec<u8>) -> Result<(), Ground> {
        let (record, sound) = Joining::lent(&self.lent[record_number(lent)?])?.judged()?;
        out.text("sound=").yes_or_no(is_sound_schedule(&record, &sound, &self.row)).text("\n");
        Ok(())
    }

    fn answer(&self, question: Question, out: &mut Vec<u8>) {
        let record = self.bench.record();
        match question {
            Question::Text => print::rows(&record.edits, &record.constraints, out),
            Question::Report => print::report(record, self.bench.sound(), out),
            Question::Hidden => self.print_hidden(out),
            Question::Schedule => self.print_schedule(out),
            Question::Catalogue => self.print_catalogue(out),
            Question::Journal => self.print_journal(out),
            Question::Page => self.print_page(out),
        }
    }

    fn print_hidden(&self, out: &mut Vec<u8>) {
        out.text("hidden=").number(self.bench.hidden().len()).text("\n");
        for &name in self.bench.hidden() {
            out.text("edit=").number(name).text("\n");
        }
    }

    fn print_schedule(&self, out: &mut Vec<u8>) {
        out.text("last=").number(self.bench.book().last_page()).text("\n");
        for (place, edit) in self.bench.book().schedule().iter().enumerate() {
            out.text("page=").number(place + 1).text(" edit=").number(edit.name).text("\n");
        }
    }

    fn print_catalogue(&self, out: &mut Vec<u8>) {
        let entries = || self.bench.book().catalogue().entries.iter().enumerate();
        let present = || entries().filter(|(_, entry)| entry.present);
        out.text("chips=").number(present().count()).text("\n");
        for (chip, entry) in present() {
            out.text("chip=").number(chip).text("\n");
            print::cells("chip=", chip, entry, out);
        }
    }

    fn print_journal(&self, out: &mut Vec<u8>) {
        let book = self.bench.book();
        out.text("open=").number(book.open_page()).text("\n");
        let pages = book.schedule().iter().zip(book.journal());
        for (place, (edit, before)) in pages.enumerate() {
            out.text("page=").number(place + 1).text(" chip=").number(edit.body.place);
            out.text(" present=").yes_or_no(before.present).text("\n");
            print::cells("page=", place + 1, before, out);
        }
    }
}

/// All lent records but the loose one.
fn proposals(lent: &[Tables; BENCHES + 1]) -> [&Tables; BENCHES] {
    std::array::from_fn(|place| &lent[place + 1])
}

fn print_outcome(outcome: Outcome, out: &mut Vec<u8>) {
    out.text("won=").yes_or_no(outcome.won);
    out.text(" greatest=").number(outcome.greatest);
    out.text(" silent=").number(outcome.silent).text(" total=").number(outcome.total);
}
