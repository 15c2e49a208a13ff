//! Histories of the model, and of the model with its calls and answers changed.

use super::*;
use crate::compare::Model;
use crate::model::{keeps, BENCHES};

type Change = fn(&str) -> String;

/// The model behind changes to its logs, its answers and its reports.
struct Changed {
    log: Change,
    answers: Change,
    report: Change,
}

const UNCHANGED: Changed =
    Changed { log: str::to_string, answers: str::to_string, report: str::to_string };

impl Other for Changed {
    fn replay(&mut self, log: &[u8]) -> Vec<u8> {
        let log = changed(log, self.log);
        changed(&Model.replay(&log), self.answers)
    }

    fn shelf(&mut self, text: &[u8]) -> Vec<u8> {
        changed(&Model.shelf(text), self.report)
    }
}

fn changed(bytes: &[u8], change: Change) -> Vec<u8> {
    change(std::str::from_utf8(bytes).unwrap()).into_bytes()
}

/// Changes the lines that begin with the one and have the other.
fn change_lines(lines: &str, begin: &str, part: &str, change: Change) -> String {
    let change = |line: &str| match line.starts_with(begin) && line.contains(part) {
        true => change(line),
        false => line.to_string(),
    };
    lines.lines().map(|line| change(line) + "\n").collect()
}

fn is_of_elections(answers: &str) -> bool {
    answers.starts_with("won=")
}

/// What does not hold in one of the first histories or another.
fn failing(voters: Voters, other: &mut dyn Other) -> Vec<Demand> {
    let mut counts = Counts::default();
    let findings = (0..40).flat_map(|seed| run(seed, voters, other, &mut counts));
    let demands: BTreeSet<Demand> = findings.map(|finding| finding.demand).collect();
    demands.into_iter().collect()
}

fn failing_with(mut changed: Changed) -> Vec<Demand> {
    failing(Voters::Keep, &mut changed)
}

/// With each of these changes to the answers this demand and no other fails.
fn assert_each_fails(changes: &[Change], demand: Demand) {
    for &answers in changes {
        assert_eq!(failing_with(Changed { answers, ..UNCHANGED }), [demand]);
    }
}

/// The histories of the first seeds.
fn histories() -> Vec<History> {
    (0..40).map(|seed| History::new(seed, Voters::Keep, &mut Model).unwrap()).collect()
}

fn all_sent(history: &History, bench: usize) -> Vec<&Record> {
    let row = history.sent.row(bench, history.sent.calls);
    row.iter().map(|proposal| &proposal.record).collect()
}

#[test]
fn everything_occurs_and_all_holds_where_voters_keep() {
    let mut counts = Counts::default();
    for seed in 0..100 {
        let findings = run(seed, Voters::Keep, &mut Model, &mut counts);
        assert!(findings.is_empty(), "{seed}");
    }
    assert_eq!(counts.missing(Voters::Keep), [""; 0]);
    assert_eq!(counts.missing(Voters::OneDoesNotKeep), ["failing histories: in all"]);
    assert_eq!(Counts::default().missing(Voters::Keep).len(), 26);
}

#[test]
fn a_voter_that_does_not_keep_is_found() {
    let found = failing(Voters::OneDoesNotKeep, &mut Model);
    assert_eq!(found, [Demand::WonAdoption, Demand::OneBundle, Demand::NoRivals, Demand::Union]);
}

#[test]
fn benches_without_weight_that_do_not_keep_change_nothing() {
    let mut not_keeping = BTreeSet::new();
    for history in histories() {
        assert!(findings(&history).is_empty());
        for bench in 1..=BENCHES {
            let row = all_sent(&history, bench);
            let is_kept = row.windows(2).all(|pair| keeps(pair[0], pair[1]));
            not_keeping.extend((!is_kept).then_some(history.roll.weight(bench)));
        }
    }
    assert_eq!(not_keeping, [None, Some(0)].into());
}

#[test]
fn an_edit_has_one_body_with_voters_and_several_with_others() {
    let mut have_several = [false; 2];
    for history in histories() {
        let (voters, others): (Vec<usize>, Vec<usize>) =
            (1..=BENCHES).partition(|&bench| history.roll.is_voter(bench));
        for (several, benches) in have_several.iter_mut().zip([voters, others]) {
            let proposals = benches.iter().flat_map(|&bench| all_sent(&history, bench));
            let mut edits: Vec<&Edit> = proposals.flat_map(|record| &record.edits).collect();
            edits.sort_by_key(|edit| edit.name);
            *several |= edits
                .windows(2)
                .any(|pair| pair[0].name == pair[1].name && pair[0].body != pair[1].body);
        }
    }
    assert_eq!(have_several, [false, true]);
}

/// What the call refuses with 11 is let through.
#[test]
fn proposals_that_need_not_keep_are_found() {
    fn forgetting(line: &str) -> String {
        let (_, old) = line.split_once(" old=").unwrap();
        format!("lent={} rows=none\n{line}", &old[..1])
    }
    let log = |log: &str| change_lines(log, "do=propose", " old=", forgetting);
    assert!(failing_with(Changed { log, ..UNCHANGED }).contains(&Demand::OneBundle));
}

#[test]
fn answers_that_no_call_has_are_found() {
    let changes: [Change; 5] = [
        |answers| answers.replace("won=", "wins="),
        |answers| answers.replace("refused=11", "refused=3"),
        |answers| answers.replace("refused=5", "refused=2"),
        |answers| answers.trim_end().to_string(),
        |answers| format!("{answers}open=0 last=0\n"),
    ];
    assert_each_fails(&changes, Demand::Answers);
    let report = |report: &str| report.replace(" settled=yes", "");
    assert_eq!(failing_with(Changed { report, ..UNCHANGED }), [Demand::Answers]);
}

#[test]
fn a_miscount_is_found() {
    fn silent(line: &str) -> String {
        line.replace("silent=0", "silent=1")
    }
    let changes: [Change; 2] = [
        |answers| change_lines(answers, "won=", "total=", silent),
        |answers| change_lines(answers, "won=", "undone=", silent),
    ];
    assert_each_fails(&changes, Demand::Count);
}

#[test]
fn a_change_by_an_open_election_is_found() {
    fn change_open(answers: &str, change: Change) -> String {
        change_lines(answers, "won=no", "undone=", change)
    }
    let changes: [Change; 3] = [
        |answers| change_open(answers, |line| line.replace("undone=0", "undone=1")),
        |answers| change_open(answers, |line| line.replace("redone=0", "redone=1")),
        |answers| change_open(answers, |_| "refused=8 line=1".to_string()),
    ];
    assert_each_fails(&changes, Demand::OpenAdoption);
}

#[test]
fn a_refused_adoption_is_found() {
    let refused: Change =
        |it| change_lines(it, "won=yes", "undone=", |_| "refused=4 line=1".to_string());
    assert_each_fails(&[refused], Demand::WonAdoption);
}

/// In the later half of the elections each insert is a remove.
#[test]
fn two_bundles_of_one_edit_are_found() {
    let answers = |answers: &str| {
        let half = answers.len() / 2;
        let later = answers[half..].replace("do=insert", "do=remove");
        match is_of_elections(answers) {
            true => format!("{}{later}", &answers[..half]),
            false => answers.to_string(),
        }
    };
    assert!(failing_with(Changed { answers, ..UNCHANGED }).contains(&Demand::OneBundle));
}

#[test]
fn rivals_are_found() {
    let report = |report: &str| report.replace("never=no", "never=yes");
    assert_eq!(failing_with(Changed { report, ..UNCHANGED }), [Demand::NoRivals]);
}

#[test]
fn another_record_than_the_union_is_found() {
    let answers = |answers: &str| match is_of_elections(answers) {
        true => {
            let begin = answers.trim_end().rfind('\n').unwrap();
            format!("{}\nleft=257 rule=notafter right=258\n", &answers[..begin])
        }
        false => answers.to_string(),
    };
    assert!(failing_with(Changed { answers, ..UNCHANGED }).contains(&Demand::Union));
}

/// Reports on many edits are refused: bundles are smaller.
#[test]
fn a_union_that_is_not_sound_is_found() {
    let report = |report: &str| match report.lines().count() > 7 {
        true => "refused=8 line=1\n".to_string(),
        false => report.to_string(),
    };
    assert!(failing_with(Changed { report, ..UNCHANGED }).contains(&Demand::Union));
}
