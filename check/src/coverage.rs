//! What occurred in the logs and texts, and what must have occurred.

mod reasons;
mod tallies;

use crate::log::{self, Kind};
use crate::model::Ground;
use crate::table::{write_table, Row};
use crate::trial::{Outcome, Trial};
use std::collections::BTreeMap;
use std::fmt;

/// The name of what isn't a line of the log in form.
const NO_FORM: &str = "(no form)";
/// The name of a whole text.
const TEXT: &str = "(text)";
/// How the answer on a record begins that can take in nothing more.
const FULL: &str = "edits=127 rules=512";

/// What is compared: logs, texts, and both once more in rooms of several sizes.
#[derive(Clone, Copy)]
pub struct Parts {
    pub logs: bool,
    pub texts: bool,
    pub rooms: bool,
}

/// How often each kind of line had each outcome. An outcome is `accepted`, the
/// answer's first word where answers differ in that, what becomes of the edit of a
/// won election, whether a reason is one of must or of never, the counts of a full
/// record, or `refused=N`. An accepted tally is also counted by what the rows of its roll
/// do, a reason by its chain and ring.
#[derive(Default)]
pub struct Coverage {
    counts: BTreeMap<(&'static str, String), u64>,
    trials: BTreeMap<(Trial, Outcome), u64>,
    lines: u64,
    texts: u64,
}

impl Coverage {
    pub fn count_line(&mut self, outcome: log::Outcome, answer: &[u8]) {
        let line = outcome.kind.map_or(NO_FORM, form_of);
        let result = match outcome.refused {
            None if tells_by_first_word(outcome.kind) => first_word(answer),
            None if outcome.kind == Some(Kind::Winner) => verdict(answer),
            None if outcome.kind == Some(Kind::Why) => second_word(answer),
            refused => result(refused, answer),
        };
        self.add(line, result);
        if outcome.kind == Some(Kind::Tally) {
            tallies::names(answer).into_iter().for_each(|name| self.add(line, name.to_string()));
        }
        if outcome.kind == Some(Kind::Why) {
            reasons::names(answer).into_iter().for_each(|name| self.add(line, name.to_string()));
        }
        self.lines += 1;
    }

    pub fn count_text(&mut self, fault: Option<Ground>, report: &[u8]) {
        self.add(TEXT, result(fault, report));
        self.texts += 1;
    }

    pub fn count_trial(&mut self, trial: Trial, outcome: Outcome) {
        *self.trials.entry((trial, outcome)).or_default() += 1;
    }

    fn add(&mut self, line: &'static str, result: String) {
        *self.counts.entry((line, result)).or_default() += 1;
    }

    fn count(&self, line: &'static str, result: &str) -> u64 {
        self.counts.get(&(line, result.to_string())).copied().unwrap_or(0)
    }

    /// What must occur in these parts and did not.
    pub fn missing(&self, parts: Parts) -> Vec<String> {
        let wanted = parts.logs.then(wanted_of_logs).into_iter().flatten();
        let wanted = wanted.chain(parts.texts.then(wanted_of_texts).into_iter().flatten());
        let missing = wanted.filter(|(line, result)| self.count(line, result) == 0);
        let missing = missing.map(|(line, result)| format!("{line}: {result}"));
        let trials = parts.rooms.then(Trial::all).into_iter().flatten();
        let trials = trials.filter(|key| !self.trials.contains_key(key));
        let trials = trials.map(|(trial, outcome)| format!("{trial}: {}", outcome.word()));
        missing.chain(trials).collect()
    }

    fn of_number(&self, number: u8) -> u64 {
        let result = format!("refused={number}");
        self.counts.iter().filter(|(key, _)| key.1 == result).map(|(_, count)| count).sum()
    }

    fn too_short(&self) -> u64 {
        let trials = self.trials.iter().filter(|(key, _)| key.1 == Outcome::TooShort);
        trials.map(|(_, count)| count).sum()
    }

    /// Everything that was counted.
    fn rows(&self) -> Vec<Row> {
        let number = |ground: Ground| {
            Row::new("by number", &refused(ground), self.of_number(ground.number()))
        };
        let of_trial = |((trial, outcome), &count): (&(Trial, Outcome), &u64)| {
            Row::new(&trial.to_string(), outcome.word(), count)
        };
        let counts = self.counts.iter();
        let mut rows: Vec<Row> =
            counts.map(|((line, result), &count)| Row::new(line, result, count)).collect();
        rows.extend(Ground::ALL.map(number));
        rows.extend(self.trials.iter().map(of_trial));
        rows.push(Row::new("in all", "lines of logs", self.lines));
        rows.push(Row::new("in all", "texts", self.texts));
        rows.push(Row::new("in all", "too short", self.too_short()));
        rows
    }
}

impl fmt::Display for Coverage {
    fn fmt(&self, out: &mut fmt::Formatter) -> fmt::Result {
        write_table(&self.rows(), out)
    }
}

fn result(fault: Option<Ground>, answer: &[u8]) -> String {
    match fault {
        Some(ground) => refused(ground),
        None if is_full(answer) => FULL.to_string(),
        None => "accepted".to_string(),
    }
}

fn is_full(answer: &[u8]) -> bool {
    answer.strip_prefix(FULL.as_bytes()).is_some_and(|rest| rest.starts_with(b"\n"))
}

fn refused(ground: Ground) -> String {
    format!("refused={}", ground.number())
}

fn form_of(kind: Kind) -> &'static str {
    let form = log::FORMS.iter().find(|form| form.0 == kind);
    form.expect("each kind has a form").1
}

fn tells_by_first_word(kind: Option<Kind>) -> bool {
    matches!(kind, Some(Kind::Adopt | Kind::Elect | Kind::Bundle | Kind::Suggest | Kind::Test))
}

fn first_word(answer: &[u8]) -> String {
    word(answer, 0)
}

fn second_word(answer: &[u8]) -> String {
    word(answer, 1)
}

fn word(answer: &[u8], place: usize) -> String {
    let word = answer.split(|byte| byte.is_ascii_whitespace()).nth(place).unwrap_or_default();
    String::from_utf8_lossy(word).into_owned()
}

/// Of the edit in the won bundle; that of an open election is its first word.
fn verdict(answer: &[u8]) -> String {
    let answer = String::from_utf8_lossy(answer);
    let mut words = answer.split_whitespace().filter(|word| {
        word.starts_with("must=") || word.starts_with("never=") || *word == "won=no"
    });
    [words.next(), words.next()].into_iter().flatten().collect::<Vec<_>>().join(" ")
}

/// Every outcome that a line of the log can have.
fn wanted_of_logs() -> Vec<(&'static str, String)> {
    let lines = log::FORMS.iter().flat_map(|&(kind, form)| {
        let accepted = accepted_results(kind).iter().map(|result| result.to_string());
        let refused = numbers(kind).iter().map(|number| format!("refused={number}"));
        accepted.chain(refused).map(move |result| (form, result))
    });
    let tallies = tallies::CASES.map(|(name, _)| (form_of(Kind::Tally), name.to_string()));
    let reasons = reasons::CASES.map(|(name, _)| (form_of(Kind::Why), name.to_string()));
    lines.chain(tallies).chain(reasons).chain([(NO_FORM, "refused=1".to_string())]).collect()
}

fn wanted_of_texts() -> Vec<(&'static str, String)> {
    let refused = [1, 2, 3, 5, 6, 8, 13].map(|number| format!("refused={number}"));
    let accepted = ["accepted", FULL].map(str::to_string);
    refused.into_iter().chain(accepted).map(|result| (TEXT, result)).collect()
}

fn accepted_results(kind: Kind) -> &'static [&'static str] {
    match kind {
        Kind::Adopt | Kind::Elect => &["won=yes", "won=no"],
        Kind::Bundle => &["eligible=yes", "eligible=no"],
        Kind::Suggest => &["rules=0", "rules=1", "rules=2"],
        Kind::Test => &["sound=yes", "sound=no"],
        Kind::Winner => &["won=no", "must=yes never=no", "must=no never=yes"],
        Kind::Why => &["why=must", "why=never"],
        Kind::AskReport => &["accepted", FULL],
        _ => &["accepted"],
    }
}

/// The numbers with which a line in form can be refused.
fn numbers(kind: Kind) -> &'static [u8] {
    match kind {
        Kind::LentEdit
        | Kind::LentConstraint
        | Kind::LentInsert
        | Kind::LentSet
        | Kind::LentRemove
        | Kind::LentRule
        | Kind::Row => &[2, 3],
        Kind::LentNone | Kind::LentBench | Kind::Roll => &[2],
        Kind::Insert | Kind::Set | Kind::Remove => &[2, 3, 4],
        Kind::Constraint => &[2, 3, 5, 6, 7, 8],
        Kind::Merge => &[2, 3, 4, 5, 6, 8, 13],
        Kind::Hide | Kind::Show => &[2, 5, 9],
        Kind::TurnForward | Kind::TurnBack => &[2, 10],
        Kind::Adopt => &[2, 3, 4, 5, 6, 8, 13, 14],
        Kind::Elect | Kind::Winner | Kind::Tally => &[2, 3, 5, 6, 8, 13, 14],
        Kind::Bundle | Kind::Test => &[2, 3, 5, 6, 8, 13],
        Kind::Why => &[2, 3, 5, 6, 8, 13, 15],
        Kind::Propose => &[2, 3, 4, 5, 6, 8, 11, 12, 13],
        Kind::Suggest => &[2, 5],
        Kind::RollNone
        | Kind::RowNone
        | Kind::AskText
        | Kind::AskReport
        | Kind::AskHidden
        | Kind::AskSchedule
        | Kind::AskCatalogue
        | Kind::AskJournal
        | Kind::AskPage => &[],
    }
}

#[cfg(test)]
mod tests {
    use super::*;
    use crate::trial::Room;

    const NOTHING: Parts = Parts { logs: false, texts: false, rooms: false };

    #[test]
    fn what_did_not_occur_is_missing_in_its_part_alone() {
        let mut coverage = Coverage::default();
        let rooms = Parts { rooms: true, ..NOTHING };
        assert_eq!(coverage.missing(NOTHING), [""; 0]);
        assert!(coverage.missing(Parts { logs: true, ..NOTHING }).len() > 100);
        assert_eq!(coverage.missing(Parts { texts: true, ..NOTHING }).len(), 9);
        assert_eq!(coverage.missing(rooms).len(), Trial::all().len());
        coverage.count_trial(Trial::Check, Outcome::Accepted);
        assert_eq!(coverage.missing(rooms).len(), Trial::all().len() - 1);
    }

    #[test]
    fn a_full_record_is_an_outcome_of_its_own() {
        let mut coverage = Coverage::default();
        coverage.count_text(None, b"edits=127 rules=512\nedit=257 must=no");
        coverage.count_text(None, b"edits=127 rules=5120\n");
        assert_eq!(coverage.count(TEXT, FULL), 1);
        assert_eq!(coverage.count(TEXT, "accepted"), 1);
        assert_eq!(coverage.texts, 2);
    }

    #[test]
    fn a_lack_of_room_is_not_counted_among_the_numbers() {
        let mut coverage = Coverage::default();
        coverage.count_trial(Trial::Report { out: Room::Short }, Outcome::TooShort);
        coverage.count_trial(Trial::Report { out: Room::Exact }, Outcome::Accepted);
        assert_eq!(coverage.too_short(), 1);
        assert_eq!(coverage.of_number(12), 0);
    }
}
