//! The call log: calls on one bench, one to a line, and their answers.

use crate::form::{self, constraint_row, edit_row, Line, Numbers};
use crate::lent::{
    push_roll, push_within, record_number, LENT_CONSTRAINT_LIMIT, LENT_EDIT_LIMIT, ROW_LIMIT,
};
use crate::model::text::{
    put, write_constraint, write_counts, write_reason, write_report, write_text, yes_or_no,
};
use crate::model::{
    election, is_eligible, is_sound_schedule, propose, reason, suggest_named, tally, Bench,
    Bundles, ConstraintRow, EditRow, Election, Entry, Ground, Pages, Record, RollRow, Room, Sound,
    Tables, BENCHES,
};

/// The forms of the log's lines.
#[derive(Clone, Copy, PartialEq, Eq, PartialOrd, Ord, Debug)]
pub enum Kind {
    LentEdit,
    LentConstraint,
    LentInsert,
    LentSet,
    LentRemove,
    LentRule,
    LentNone,
    LentBench,
    Roll,
    RollNone,
    Row,
    RowNone,
    Insert,
    Set,
    Remove,
    Constraint,
    Merge,
    Hide,
    Show,
    TurnForward,
    TurnBack,
    Adopt,
    Elect,
    Bundle,
    Propose,
    Suggest,
    Test,
    Winner,
    Tally,
    Why,
    AskText,
    AskReport,
    AskHidden,
    AskSchedule,
    AskCatalogue,
    AskJournal,
    AskPage,
}

pub const FORMS: [(Kind, &str); 37] = [
    (Kind::LentEdit, "lent=# edit=# kind=# chip=# field=# value=#"),
    (Kind::LentConstraint, "lent=# left=# rule=# right=#"),
    (Kind::LentInsert, "lent=# edit=@ do=insert chip=#"),
    (Kind::LentSet, "lent=# edit=@ do=set chip=# field=F value=#"),
    (Kind::LentRemove, "lent=# edit=@ do=remove chip=#"),
    (Kind::LentRule, "lent=# left=@ rule=R right=@"),
    (Kind::LentNone, "lent=# rows=none"),
    (Kind::LentBench, "lent=# rows=bench"),
    (Kind::Roll, "roll=# weight=#"),
    (Kind::RollNone, "roll=none"),
    (Kind::Row, "row=#"),
    (Kind::RowNone, "row=none"),
    (Kind::Insert, form::INSERT),
    (Kind::Set, form::SET),
    (Kind::Remove, form::REMOVE),
    (Kind::Constraint, form::CONSTRAINT),
    (Kind::Merge, "do=merge lent=#"),
    (Kind::Hide, "do=hide edit=#"),
    (Kind::Show, "do=show edit=#"),
    (Kind::TurnForward, "do=turn pages=#"),
    (Kind::TurnBack, "do=turn pages=-#"),
    (Kind::Adopt, "do=adopt edit=#"),
    (Kind::Elect, "do=elect edit=#"),
    (Kind::Bundle, "do=bundle edit=# lent=#"),
    (Kind::Propose, "do=propose lent=# old=# edits=# rules=# keep=?"),
    (Kind::Suggest, "do=suggest first=# second=# case=#"),
    (Kind::Test, "do=test lent=#"),
    (Kind::Winner, "do=winner edit=#"),
    (Kind::Tally, "do=tally edit=#"),
    (Kind::Why, "do=why edit=# lent=#"),
    (Kind::AskText, "ask=text"),
    (Kind::AskReport, "ask=report"),
    (Kind::AskHidden, "ask=hidden"),
    (Kind::AskSchedule, "ask=schedule"),
    (Kind::AskCatalogue, "ask=catalogue"),
    (Kind::AskJournal, "ask=journal"),
    (Kind::AskPage, "ask=page"),
];

/// What became of a line.
#[derive(Clone, Copy, PartialEq, Eq, Debug)]
pub struct Outcome {
    /// None if the line is in no form.
    pub kind: Option<Kind>,
    /// None if it was accepted.
    pub refused: Option<Ground>,
}

/// The answers to a log.
pub fn run(log: &[u8]) -> Vec<u8> {
    run_after(b"", log)
}

/// The answers to a log alone, on the bench that a kept log made.
pub fn run_after(kept: &[u8], log: &[u8]) -> Vec<u8> {
    let mut answers = Vec::new();
    let mut session = Session::default();
    session.feed(kept);
    for line in form::lines(log) {
        session.line(line, &mut answers);
    }
    answers
}

/// A bench and what is lent to its calls.
#[derive(Clone, Default)]
pub struct Session {
    pub bench: Bench,
    /// 1 to 8 are the proposals by bench, 0 is loose.
    pub lent: [Tables; BENCHES + 1],
    roll: Vec<RollRow>,
    row: Vec<u32>,
    lines: u64,
}

impl Session {
    /// Runs one line and appends its answer.
    pub fn line(&mut self, line: Line, answers: &mut Vec<u8>) -> Outcome {
        self.lines += 1;
        let found = form::find(&FORMS, line.bytes).filter(|_| line.ended);
        let kind = found.as_ref().map(|(kind, _)| *kind);
        let result = match found {
            Some((kind, numbers)) => numbers.and_then(|numbers| self.call(kind, numbers, answers)),
            None => Err(Ground::Form),
        };
        if let Err(ground) = result {
            put(answers, format_args!("refused={} line={}", ground.number(), self.lines));
        }
        Outcome { kind, refused: result.err() }
    }

    /// Runs every line of some bytes.
    pub fn feed(&mut self, bytes: &[u8]) {
        let mut answers = Vec::new();
        for line in form::lines(bytes) {
            answers.clear();
            self.line(line, &mut answers);
        }
    }

    /// Runs a line in form. Nothing is written before it is accepted.
    fn call(&mut self, kind: Kind, numbers: Numbers, out: &mut Vec<u8>) -> Result<(), Ground> {
        let [first, second, third, ..] = numbers;
        match kind {
            Kind::LentEdit => self.lend_edit(first, row_of_numbers(after_first(numbers))),
            Kind::LentInsert => self.lend_edit(first, edit_row(0, after_first(numbers))),
            Kind::LentSet => self.lend_edit(first, edit_row(1, after_first(numbers))),
            Kind::LentRemove => self.lend_edit(first, edit_row(2, after_first(numbers))),
            Kind::LentConstraint | Kind::LentRule => {
                self.lend_constraint(first, constraint_row(after_first(numbers)))
            }
            Kind::LentNone => self.lend(first, Tables::default()),
            Kind::LentBench => self.lend(first, Tables::from(self.bench.record())),
            Kind::Roll => push_roll(&mut self.roll, first, second),
            Kind::RollNone => {
                self.roll.clear();
                Ok(())
            }
            Kind::Row => push_within(&mut self.row, first, ROW_LIMIT),
            Kind::RowNone => {
                self.row.clear();
                Ok(())
            }
            Kind::Insert => self.add_edit(edit_row(0, numbers), out),
            Kind::Set => self.add_edit(edit_row(1, numbers), out),
            Kind::Remove => self.add_edit(edit_row(2, numbers), out),
            Kind::Constraint => {
                let pages = self.bench.add_constraint(constraint_row(numbers))?;
                self.write_change(pages, out)
            }
            Kind::Merge => {
                let pages = self.bench.merge(&self.lent[record_number(first)?])?;
                self.write_change(pages, out)
            }
            Kind::Hide => {
                let pages = self.bench.hide(first)?;
                self.write_change(pages, out)
            }
            Kind::Show => {
                let pages = self.bench.show(first)?;
                self.write_change(pages, out)
            }
            Kind::TurnForward => self.turn(i64::from(first), out),
            Kind::TurnBack => self.turn(-i64::from(first), out),
            Kind::Adopt => self.adopt(first, out),
            Kind::Elect => self.elect(first, out),
            Kind::Bundle => self.bundle(first, second, out),
            Kind::Propose => self.propose(numbers, out),
            Kind::Suggest => self.suggest(first, second, third, out),
            Kind::Test => self.test(first, out),
            Kind::Winner => self.winner(first, out),
            Kind::Tally => self.tally(first, out),
            Kind::Why => self.why(first, second, out),
            _ => {
                self.answer(kind, out);
                Ok(())
            }
        }
    }

    /// Answers a question.
    fn answer(&self, kind: Kind, out: &mut Vec<u8>) {
        match kind {
            Kind::AskText => write_record(self.bench.record(), out),
            Kind::AskReport => self.write_report(out),
            Kind::AskHidden => self.write_hidden(out),
            Kind::AskSchedule => self.write_schedule(out),
            Kind::AskCatalogue => self.write_catalogue(out),
            Kind::AskJournal => self.write_journal(out),
            Kind::AskPage => put(out, format_args!("{}", self.place())),
            _ => unreachable!("{kind:?} is no question"),
        }
    }

    fn lend_edit(&mut self, number: u32, row: EditRow) -> Result<(), Ground> {
        push_within(&mut self.lent[record_number(number)?].edits, row, LENT_EDIT_LIMIT)
    }

    fn lend_constraint(&mut self, number: u32, row: ConstraintRow) -> Result<(), Ground> {
        let lent = &mut self.lent[record_number(number)?];
        push_within(&mut lent.constraints, row, LENT_CONSTRAINT_LIMIT)
    }

    /// Puts a record in the place of a lent one.
    fn lend(&mut self, number: u32, tables: Tables) -> Result<(), Ground> {
        self.lent[record_number(number)?] = tables;
        Ok(())
    }

    fn add_edit(&mut self, row: EditRow, out: &mut Vec<u8>) -> Result<(), Ground> {
        let pages = self.bench.add_edit(row)?;
        self.write_change(pages, out)
    }

    fn write_change(&self, pages: Pages, out: &mut Vec<u8>) -> Result<(), Ground> {
        put(out, format_args!("{} {}", show_pages(pages), self.place()));
        Ok(())
    }

    fn place(&self) -> String {
        let book = self.bench.book();
        format!("open={} last={}", book.open_page(), book.last_page())
    }

    fn turn(&mut self, pages: i64, out: &mut Vec<u8>) -> Result<(), Ground> {
        self.bench.turn(i32::try_from(pages).map_err(|_| Ground::Range)?)?;
        self.write_change(Pages::default(), out)
    }

    fn adopt(&mut self, edit: u32, out: &mut Vec<u8>) -> Result<(), Ground> {
        let (election, pages) = self.bench.adopt(proposals(&self.lent), &self.roll, edit)?;
        let (election, pages) = (show_election(&election), show_pages(pages));
        put(out, format_args!("{election} {pages} {}", self.place()));
        Ok(())
    }

    fn elect(&self, edit: u32, out: &mut Vec<u8>) -> Result<(), Ground> {
        let election = election(proposals(&self.lent), &self.roll, edit)?;
        put(out, format_args!("{}", show_election(&election)));
        Ok(())
    }

    /// The election, and if it is won what becomes of the edit in the won bundle.
    fn winner(&self, edit: u32, out: &mut Vec<u8>) -> Result<(), Ground> {
        let election = election(proposals(&self.lent), &self.roll, edit)?;
        put(out, format_args!("{}", show_election(&election)));
        if let Some(bundle) = &election.won {
            let sound = Sound::new(bundle).expect("a part of a sound record is sound");
            let index = bundle.named(edit).expect("a bundle has its edit");
            let (must, never) = (yes_or_no(sound.must(index)), yes_or_no(sound.never(index)));
            out.extend_from_slice(format!("edit={edit} must={must} never={never} ").as_bytes());
            write_record(bundle, out);
        }
        Ok(())
    }

    /// The election on the rows of the roll so far, before the first row and after each.
    fn tally(&self, edit: u32, out: &mut Vec<u8>) -> Result<(), Ground> {
        for election in tally(proposals(&self.lent), &self.roll, edit)? {
            put(out, format_args!("{}", show_election(&election)));
        }
        Ok(())
    }

    fn bundle(&self, edit: u32, lent: u32, out: &mut Vec<u8>) -> Result<(), Ground> {
        let record = Record::lent(&self.lent[record_number(lent)?])?;
        let edit = record.named(edit)?;
        Sound::new(&record)?;
        let bundle = Bundles::new(&record).of(edit);
        out.extend_from_slice(format!("eligible={} ", yes_or_no(is_eligible(&bundle))).as_bytes());
        write_record(&bundle, out);
        Ok(())
    }

    fn propose(&mut self, numbers: Numbers, out: &mut Vec<u8>) -> Result<(), Ground> {
        let [from, old, edits, constraints, keep, ..] = numbers;
        let (from, old) = (record_number(from)?, record_number(old)?);
        let room = Room { edits: edits as usize, constraints: constraints as usize };
        let proposal = propose(&self.lent[from], &self.lent[old], room)?;
        write_record(&proposal, out);
        if keep == 1 {
            self.lent[old] = Tables::from(&proposal);
        }
        Ok(())
    }

    fn suggest(&self, first: u32, second: u32, case: u32, out: &mut Vec<u8>) -> Result<(), Ground> {
        let record = self.bench.record();
        let edit = |number| record.named(number).map(|index| record.edits[index - 1]);
        let rows = suggest_named(edit(first), edit(second), case)?;
        put(out, format_args!("rules={}", rows.len()));
        rows.into_iter().for_each(|row| write_constraint(row, out));
        Ok(())
    }

    fn test(&self, lent: u32, out: &mut Vec<u8>) -> Result<(), Ground> {
        let record = Record::lent(&self.lent[record_number(lent)?])?;
        Sound::new(&record)?;
        let sound = is_sound_schedule(&record, &self.row);
        put(out, format_args!("sound={}", yes_or_no(sound)));
        Ok(())
    }

    fn why(&self, edit: u32, lent: u32, out: &mut Vec<u8>) -> Result<(), Ground> {
        let record = Record::lent(&self.lent[record_number(lent)?])?;
        let index = record.named(edit)?;
        Sound::new(&record)?;
        write_reason(edit, &reason(&record, index).ok_or(Ground::NoReason)?, out);
        Ok(())
    }

    fn write_report(&self, out: &mut Vec<u8>) {
        let record = self.bench.record();
        let sound = Sound::new(record).expect("the bench's record is sound");
        write_report(record, &sound, out);
    }

    fn write_hidden(&self, out: &mut Vec<u8>) {
        put(out, format_args!("hidden={}", self.bench.hidden().len()));
        for name in self.bench.hidden() {
            put(out, format_args!("edit={name}"));
        }
    }

    fn write_schedule(&self, out: &mut Vec<u8>) {
        put(out, format_args!("last={}", self.bench.book().last_page()));
        for (place, edit) in self.bench.book().schedule().iter().enumerate() {
            put(out, format_args!("page={} edit={}", place + 1, edit.name));
        }
    }

    fn write_catalogue(&self, out: &mut Vec<u8>) {
        let entries = || self.bench.book().catalogue().entries.iter().enumerate();
        let present = || entries().filter(|(_, entry)| entry.present);
        put(out, format_args!("chips={}", present().count()));
        for (chip, entry) in present() {
            put(out, format_args!("chip={chip}"));
            write_cells(&format!("chip={chip}"), entry, out);
        }
    }

    fn write_journal(&self, out: &mut Vec<u8>) {
        let book = self.bench.book();
        put(out, format_args!("open={}", book.open_page()));
        let pages = book.schedule().iter().zip(book.journal());
        for (place, (edit, before)) in pages.enumerate() {
            let (page, chip) = (place + 1, edit.body.place);
            let present = yes_or_no(before.present);
            put(out, format_args!("page={page} chip={chip} present={present}"));
            write_cells(&format!("page={page}"), before, out);
        }
    }
}

/// The numbers after that of the lent record.
fn after_first(mut numbers: Numbers) -> Numbers {
    numbers.rotate_left(1);
    numbers
}

fn row_of_numbers([name, kind, place, field, value, ..]: Numbers) -> EditRow {
    EditRow { name, kind, place, field, value }
}

/// All lent records but the loose one.
fn proposals(lent: &[Tables; BENCHES + 1]) -> &[Tables; BENCHES] {
    lent.last_chunk().expect("the proposals are all but the first")
}

fn show_pages(pages: Pages) -> String {
    format!("undone={} redone={}", pages.undone, pages.redone)
}

fn show_election(election: &Election) -> String {
    let Election { won, greatest, silent, total } = election;
    let won = yes_or_no(won.is_some());
    format!("won={won} greatest={greatest} silent={silent} total={total}")
}

fn write_record(record: &Record, out: &mut Vec<u8>) {
    write_counts(record, out);
    write_text(record, out);
}

fn write_cells(begin: &str, entry: &Entry, out: &mut Vec<u8>) {
    for (field, value) in entry.filled() {
        put(out, format_args!("{begin} field={} value={value}", field.word()));
    }
}

#[cfg(test)]
mod tests {
    use super::*;

    fn answers(log: &str) -> String {
        String::from_utf8(run(log.as_bytes())).unwrap()
    }

    #[test]
    fn calls_and_questions() {
        let log = "edit=257 do=insert chip=5\n\
                   edit=258 do=set chip=5 field=size value=8192\n\
                   left=257 rule=enables right=258\n\
                   do=turn pages=-1\n\
                   ask=catalogue\n\
                   do=turn pages=1\n\
                   ask=catalogue\n\
                   ask=journal\n\
                   do=hide edit=258\n\
                   ask=hidden\n\
                   ask=schedule\n\
                   do=suggest first=257 second=258 case=0\n\
                   ask=page\n";
        let expected = "undone=0 redone=1 open=1 last=1\n\
                        undone=0 redone=1 open=2 last=2\n\
                        undone=0 redone=0 open=2 last=2\n\
                        undone=0 redone=0 open=1 last=2\n\
                        chips=1\nchip=5\n\
                        undone=0 redone=0 open=2 last=2\n\
                        chips=1\nchip=5\nchip=5 field=size value=8192\n\
                        open=2\npage=1 chip=5 present=no\npage=2 chip=5 present=yes\n\
                        undone=1 redone=0 open=1 last=1\n\
                        hidden=1\nedit=258\n\
                        last=1\npage=1 edit=257\n\
                        rules=2\nleft=257 rule=notafter right=258\nleft=257 rule=enables right=258\n\
                        open=1 last=1\n";
        assert_eq!(answers(log), expected);
    }

    #[test]
    fn a_vote_from_proposal_to_adoption() {
        let log = "lent=0 edit=257 kind=0 chip=5 field=0 value=0\n\
                   do=propose lent=0 old=3 edits=1 rules=1 keep=yes\n\
                   do=bundle edit=257 lent=3\n\
                   roll=3 weight=2\n\
                   roll=4 weight=1\n\
                   do=elect edit=257\n\
                   do=adopt edit=257\n\
                   ask=text\n\
                   row=0\n\
                   do=test lent=3\n\
                   row=257\n\
                   do=test lent=3\n";
        let text = "edits=1 rules=1\nedit=257 do=insert chip=5\nleft=257 rule=enables right=0\n";
        let expected = format!(
            "{text}eligible=yes {text}\
             won=yes greatest=2 silent=1 total=3\n\
             won=yes greatest=2 silent=1 total=3 undone=0 redone=1 open=1 last=1\n\
             {text}sound=no\nsound=yes\n"
        );
        assert_eq!(answers(log), expected);
    }

    #[test]
    fn what_becomes_of_an_edit_in_the_won_bundle() {
        let log = "lent=3 edit=257 do=insert chip=5\n\
                   lent=3 edit=258 do=insert chip=6\n\
                   lent=3 left=257 rule=enables right=0\n\
                   lent=3 left=258 rule=notafter right=258\n\
                   roll=3 weight=2\n\
                   roll=4 weight=1\n\
                   do=winner edit=257\n\
                   do=winner edit=258\n\
                   roll=5 weight=1\n\
                   do=winner edit=257\n";
        let expected = "won=yes greatest=2 silent=1 total=3\n\
                        edit=257 must=yes never=no edits=1 rules=1\n\
                        edit=257 do=insert chip=5\nleft=257 rule=enables right=0\n\
                        won=yes greatest=2 silent=1 total=3\n\
                        edit=258 must=no never=yes edits=1 rules=1\n\
                        edit=258 do=insert chip=6\nleft=258 rule=notafter right=258\n\
                        won=no greatest=2 silent=2 total=4\n";
        assert_eq!(answers(log), expected);
    }

    #[test]
    fn a_tally_answers_before_the_first_row_and_after_each() {
        let lent = "lent=1 edit=257 do=insert chip=5\nlent=1 left=257 rule=enables right=0\n\
                    lent=2 edit=257 do=insert chip=5\nlent=2 left=257 rule=enables right=0\n\
                    lent=3 edit=257 do=insert chip=5\nlent=3 left=257 rule=notafter right=257\n";
        let cases = [
            (
                "roll=4 weight=1\nroll=1 weight=3\nroll=3 weight=2\nroll=2 weight=2\n",
                "won=no greatest=0 silent=0 total=0\n\
                 won=no greatest=0 silent=1 total=1\n\
                 won=yes greatest=3 silent=1 total=4\n\
                 won=no greatest=3 silent=1 total=6\n\
                 won=yes greatest=5 silent=1 total=8\n",
            ),
            (
                "roll=1 weight=2\nroll=3 weight=2\n",
                "won=no greatest=0 silent=0 total=0\n\
                 won=yes greatest=2 silent=0 total=2\n\
                 won=no greatest=2 silent=0 total=4\n",
            ),
            (
                "roll=1 weight=0\nroll=2 weight=0\n",
                "won=no greatest=0 silent=0 total=0\n\
                 won=no greatest=0 silent=0 total=0\n\
                 won=no greatest=0 silent=0 total=0\n",
            ),
            ("", "won=no greatest=0 silent=0 total=0\n"),
        ];
        for (roll, expected) in cases {
            assert_eq!(answers(&format!("{lent}{roll}do=tally edit=257\n")), expected, "{roll}");
        }
    }

    #[test]
    fn why_is_asked_of_a_lent_record() {
        let log = "lent=1 edit=257 do=insert chip=5\n\
                   lent=1 edit=258 do=insert chip=5\n\
                   lent=1 edit=259 do=insert chip=5\n\
                   lent=1 left=257 rule=notafter right=258\n\
                   lent=1 left=257 rule=enables right=259\n\
                   lent=1 left=258 rule=notafter right=257\n\
                   lent=1 left=258 rule=enables right=259\n\
                   do=why edit=259 lent=1\n\
                   do=why edit=257 lent=1\n\
                   do=why edit=0 lent=1\n\
                   do=why edit=260 lent=1\n\
                   do=why edit=259 lent=9\n\
                   lent=1 left=259 rule=enables right=0\n\
                   do=why edit=257 lent=1\n\
                   do=why edit=260 lent=1\n\
                   lent=1 left=259 rule=enables right=0\n\
                   do=why edit=260 lent=1\n";
        let expected = "edit=259 why=never chain=259,257 ring=257,258\n\
                        refused=15 line=9\nrefused=2 line=10\nrefused=5 line=11\n\
                        refused=2 line=12\nrefused=8 line=14\nrefused=5 line=15\n\
                        refused=13 line=17\n";
        assert_eq!(answers(log), expected);
        let decided = "edit=257 do=insert chip=5\n\
                       lent=1 edit=257 do=insert chip=5\n\
                       lent=1 left=257 rule=enables right=0\n\
                       do=merge lent=1\n\
                       lent=0 rows=bench\n\
                       do=why edit=257 lent=0\n";
        assert!(answers(decided).ends_with("edit=257 why=must chain=257,0\n"));
    }

    /// Lines of a tally are those of elections on rolls that have some of the rows.
    #[test]
    fn a_tally_is_the_election_on_each_beginning_of_the_roll() {
        let mut accepted = 0;
        for seed in 0..100 {
            let mut session = Session::default();
            for line in form::lines(&crate::random::log(seed, 100)) {
                let mut answer = Vec::new();
                let outcome = session.line(line, &mut answer);
                if outcome == (Outcome { kind: Some(Kind::Tally), refused: None }) {
                    let election = String::from_utf8_lossy(line.bytes).replace("tally", "elect");
                    assert_eq!(answer, elections_so_far(&session, &election));
                    accepted += 1;
                }
            }
        }
        assert!(accepted > 10);
    }

    /// The answers to an election before the first row of the roll and after each.
    fn elections_so_far(session: &Session, election: &str) -> Vec<u8> {
        let mut so_far = session.clone();
        so_far.roll.clear();
        let mut answers = Vec::new();
        let line = form::Line { bytes: election.as_bytes(), ended: true };
        so_far.line(line, &mut answers);
        for &row in &session.roll {
            so_far.roll.push(row);
            so_far.line(line, &mut answers);
        }
        answers
    }

    #[test]
    fn refusals_name_their_line() {
        let cases = [
            ("", ""),
            ("\n", "refused=1 line=1\n"),
            ("ask=page", "refused=1 line=1\n"),
            ("ask=page\nask=pages\n", "open=0 last=0\nrefused=1 line=2\n"),
            ("row=4294967296\n", "refused=2 line=1\n"),
            ("lent=9 rows=none\n", "refused=2 line=1\n"),
            ("do=turn pages=2147483647\n", "refused=10 line=1\n"),
            ("do=turn pages=2147483648\n", "refused=2 line=1\n"),
            ("do=turn pages=-2147483648\n", "refused=10 line=1\n"),
            ("do=turn pages=-2147483649\n", "refused=2 line=1\n"),
            ("do=turn pages=-4294967296\n", "refused=2 line=1\n"),
            ("lent=9 edit=257 do=insert chip=5\n", "refused=2 line=1\n"),
            ("lent=9 left=257 rule=enables right=0\n", "refused=2 line=1\n"),
            ("lent=8 edit=257 do=set chip=5 field=size value=4294967296\n", "refused=2 line=1\n"),
            ("lent=8 edit=257 do=insert chip=5 field=size value=1\n", "refused=1 line=1\n"),
            ("lent=8 edit=257 kind=insert chip=5\n", "refused=1 line=1\n"),
            ("lent=8 left=257 rule=requires right=0\n", "refused=1 line=1\n"),
            ("lent=8 lent=8 left=257 rule=enables right=0\n", "refused=1 line=1\n"),
            ("do=turn pages=-0\n", "undone=0 redone=0 open=0 last=0\n"),
            ("roll=256 weight=0\n", "refused=2 line=1\n"),
            ("roll=9 weight=0\ndo=elect edit=0\n", "refused=14 line=2\n"),
            ("do=elect edit=0\n", "refused=2 line=1\n"),
            ("do=elect edit=257\n", "refused=5 line=1\n"),
            ("do=winner edit=256\n", "refused=2 line=1\n"),
            ("do=winner edit=257\n", "refused=5 line=1\n"),
            ("do=tally edit=256\n", "refused=2 line=1\n"),
            ("do=tally edit=257\n", "refused=5 line=1\n"),
            ("do=tally edit=257 \n", "refused=1 line=1\n"),
            ("roll=1 weight=1\nroll=1 weight=1\ndo=tally edit=257\n", "refused=14 line=3\n"),
            ("do=suggest first=257 second=0 case=0\n", "refused=2 line=1\n"),
            ("do=suggest first=257 second=258 case=2\n", "refused=2 line=1\n"),
            ("do=suggest first=257 second=258 case=1\n", "refused=5 line=1\n"),
        ];
        for (log, expected) in cases {
            assert_eq!(answers(log), expected, "{log}");
        }
    }

    #[test]
    fn a_line_of_the_text_lends_the_row_that_it_says() {
        let cases = [
            ("edit=257 do=insert chip=5", "edit=257 kind=0 chip=5 field=0 value=0"),
            (
                "edit=258 do=set chip=5 field=erase value=4096",
                "edit=258 kind=1 chip=5 field=2 value=4096",
            ),
            ("edit=259 do=remove chip=64", "edit=259 kind=2 chip=64 field=0 value=0"),
            ("left=257 rule=notafter right=258", "left=257 rule=0 right=258"),
            ("left=257 rule=enables right=0", "left=257 rule=1 right=0"),
            ("left=257 rule=noncommuting right=256", "left=257 rule=2 right=256"),
        ];
        for (text, row) in cases {
            let lent = |line: &str| {
                let mut session = Session::default();
                session.feed(format!("lent=2 {line}\n").as_bytes());
                session.lent
            };
            assert_eq!(lent(text), lent(row), "{text}");
            assert_ne!(lent(text)[2], Tables::default(), "{text}");
        }
    }

    #[test]
    fn a_decision_lent_by_its_text_is_merged() {
        let log = "lent=2 edit=257 do=insert chip=5\n\
                   lent=2 left=257 rule=enables right=0\n\
                   do=merge lent=2\n\
                   ask=text\n";
        let expected = "undone=0 redone=1 open=1 last=1\n\
                        edits=1 rules=1\n\
                        edit=257 do=insert chip=5\n\
                        left=257 rule=enables right=0\n";
        assert_eq!(answers(log), expected);
    }

    #[test]
    fn the_record_number_counts_among_the_bytes_of_a_line() {
        let begin = "lent=2 edit=257 do=insert chip=";
        let long = |length: usize| format!("{begin}{}\n", "9".repeat(length - begin.len()));
        assert_eq!(answers(&long(100)), "refused=2 line=1\n");
        assert_eq!(answers(&long(101)), "refused=1 line=1\n");
    }

    #[test]
    fn what_is_lent_has_its_limits() {
        let count_refused = |line: &str, times: usize| {
            let answers = answers(&line.repeat(times));
            assert!(answers.lines().all(|answer| answer.starts_with("refused=3 ")));
            answers.lines().count()
        };
        let edit = "lent=8 edit=1 kind=2 chip=3 field=4 value=5\n";
        assert_eq!(count_refused(edit, 130), 2);
        assert_eq!(count_refused("lent=8 edit=1 do=remove chip=3\n", 130), 2);
        assert_eq!(count_refused("lent=0 left=1 rule=2 right=3\n", 515), 2);
        assert_eq!(count_refused("lent=0 left=1 rule=enables right=3\n", 515), 2);
        assert_eq!(count_refused("row=7\n", 131), 2);
        assert_eq!(count_refused("roll=1 weight=1\n", 100), 0);
    }
}
