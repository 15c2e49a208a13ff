//! What occurred in the histories, and what must have occurred.

use super::elections::{Election, Vote};
use super::findings::{Demand, Finding};
use super::{Bundle, History, Voters};
use crate::model::BENCHES;
use crate::table::{write_table, Row};
use std::collections::BTreeMap;
use std::fmt;

/// How often each thing occurred.
#[derive(Default)]
pub struct Counts {
    histories: u64,
    with_two_bundles: u64,
    elections: u64,
    won: u64,
    won_with_older: u64,
    won_against_others: u64,
    open: u64,
    open_at_half: u64,
    edits_won: u64,
    edits_won_again: u64,
    bundles: u64,
    with_must: u64,
    with_never: u64,
    sent: [u64; BENCHES],
    sent_by_voters: u64,
    sent_with_no_weight: u64,
    sent_off_the_roll: u64,
    not_sound: u64,
    not_kept: u64,
    failing: u64,
    failing_in: BTreeMap<Demand, u64>,
}

impl Counts {
    pub(super) fn count(&mut self, history: &History) {
        self.histories += 1;
        self.with_two_bundles += u64::from(history.bundles.len() > 1);
        history.elections.iter().for_each(|election| self.count_election(election));
        self.count_edits(&history.elections);
        self.count_bundles(&history.bundles);
        (1..=BENCHES).for_each(|bench| self.count_sent(history, bench));
        self.not_sound += counted(&history.sent.refused, |&number| number == 8);
        self.not_kept += counted(&history.sent.refused, |&number| number == 11);
    }

    pub(super) fn count_findings(&mut self, findings: &[Finding]) {
        self.failing += u64::from(!findings.is_empty());
        for finding in findings {
            *self.failing_in.entry(finding.demand).or_default() += 1;
        }
    }

    /// How many histories fail.
    pub fn failing(&self) -> u64 {
        self.failing
    }

    fn count_election(&mut self, election: &Election) {
        self.elections += 1;
        match election.won() {
            Some(bundle) => self.count_won(bundle, &election.votes),
            None => {
                let count = election.recount();
                self.open += 1;
                self.open_at_half += u64::from(2 * count.greatest == count.total);
            }
        }
    }

    fn count_won(&mut self, bundle: &[u8], votes: &[Vote]) {
        let won_by = |vote: &Vote| vote.weight > 0 && vote.bundle.as_deref() == Some(bundle);
        let others = |vote: &Vote| {
            vote.weight > 0 && vote.bundle.as_deref().is_some_and(|other| other != bundle)
        };
        self.won += 1;
        self.won_with_older += u64::from(votes.iter().any(|it| won_by(it) && it.is_older));
        self.won_against_others += u64::from(votes.iter().any(others));
    }

    fn count_edits(&mut self, elections: &[Election]) {
        let mut times: BTreeMap<u16, u64> = BTreeMap::new();
        for election in elections.iter().filter(|election| election.won().is_some()) {
            *times.entry(election.edit).or_default() += 1;
        }
        self.edits_won += times.len() as u64;
        self.edits_won_again += times.values().filter(|&&times| times > 1).count() as u64;
    }

    fn count_bundles(&mut self, bundles: &[Bundle]) {
        self.bundles += bundles.len() as u64;
        self.with_must += counted(bundles, |bundle| bundle.must().next().is_some());
        self.with_never += counted(bundles, |bundle| bundle.never().next().is_some());
    }

    fn count_sent(&mut self, history: &History, bench: usize) {
        let sent = history.sent.row(bench, history.sent.calls).len() as u64;
        self.sent[bench - 1] += sent;
        match history.roll.weight(bench) {
            None => self.sent_off_the_roll += sent,
            Some(0) => self.sent_with_no_weight += sent,
            Some(_) => self.sent_by_voters += sent,
        }
    }

    /// What must occur and did not: with the planted fault a history that fails.
    pub fn missing(&self, voters: Voters) -> Vec<String> {
        let wanted = match voters {
            Voters::Keep => self.wanted(),
            Voters::OneDoesNotKeep => vec![Row::new("failing histories", "in all", self.failing)],
        };
        let missing = wanted.iter().filter(|row| row.count == 0);
        missing.map(Row::to_string).collect()
    }

    /// What must occur where voters keep.
    fn wanted(&self) -> Vec<Row> {
        let mut rows = vec![
            Row::new("histories", "in all", self.histories),
            Row::new("histories", "two won bundles", self.with_two_bundles),
            Row::new("elections", "in all", self.elections),
            Row::new("elections", "won", self.won),
            Row::new("elections", "won, older held", self.won_with_older),
            Row::new("elections", "won against others", self.won_against_others),
            Row::new("elections", "open", self.open),
            Row::new("elections", "open at half", self.open_at_half),
            Row::new("edits", "won", self.edits_won),
            Row::new("edits", "won more than once", self.edits_won_again),
            Row::new("won bundles", "in all", self.bundles),
            Row::new("won bundles", "an edit must stand", self.with_must),
            Row::new("won bundles", "an edit never can", self.with_never),
            Row::new("proposals", "of voters", self.sent_by_voters),
            Row::new("proposals", "with weight 0", self.sent_with_no_weight),
            Row::new("proposals", "off the roll", self.sent_off_the_roll),
        ];
        let of_bench = |(&sent, bench)| Row::new("proposals", &format!("of bench {bench}"), sent);
        rows.extend(self.sent.iter().zip(1..=BENCHES).map(of_bench));
        rows.push(Row::new("proposals", "refused=8", self.not_sound));
        rows.push(Row::new("proposals", "refused=11", self.not_kept));
        rows
    }
}

impl fmt::Display for Counts {
    fn fmt(&self, out: &mut fmt::Formatter) -> fmt::Result {
        let failing = "failing histories";
        let mut rows = self.wanted();
        let in_demand =
            |(demand, &count): (&Demand, &u64)| Row::new(failing, demand.words(), count);
        rows.extend(self.failing_in.iter().map(in_demand));
        rows.push(Row::new(failing, "in all", self.failing));
        write_table(&rows, out)
    }
}

fn counted<Item>(items: &[Item], holds: impl Fn(&Item) -> bool) -> u64 {
    items.iter().filter(|item| holds(item)).count() as u64
}
