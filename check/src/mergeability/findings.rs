//! What has to hold in a history, and what was found not to.

use super::answers::{Adoption, Failure};
use super::elections::Election;
use super::{Bundle, History, Voters};
use std::collections::BTreeMap;

/// What has to hold.
#[derive(Clone, Copy, PartialEq, Eq, PartialOrd, Ord, Debug)]
pub enum Demand {
    /// Each answer has the form that the call log gives it.
    Answers,
    /// The count of an election is that of the bundles that benches vote for.
    Count,
    /// The adoption of an open election is accepted and changes nothing.
    OpenAdoption,
    /// The adoption of a won election is accepted.
    WonAdoption,
    /// An edit wins with one bundle over all time.
    OneBundle,
    /// No edit can never stand in one won bundle and must stand in another.
    NoRivals,
    /// The bench's record is the union of the won bundles, and sound.
    Union,
}

impl Demand {
    /// Whether it holds only where each voter keeps its old proposals.
    pub fn needs_keeping(self) -> bool {
        matches!(self, Demand::WonAdoption | Demand::OneBundle | Demand::NoRivals | Demand::Union)
    }

    pub fn words(self) -> &'static str {
        match self {
            Demand::Answers => "answers",
            Demand::Count => "count",
            Demand::OpenAdoption => "open adoption",
            Demand::WonAdoption => "won adoption",
            Demand::OneBundle => "one bundle",
            Demand::NoRivals => "no rivals",
            Demand::Union => "union",
        }
    }
}

/// Something that does not hold.
pub struct Finding {
    pub demand: Demand,
    pub what: String,
    /// The texts in question, each with a title.
    pub texts: Vec<(&'static str, Vec<u8>)>,
}

impl Finding {
    fn new(demand: Demand, what: String) -> Finding {
        Finding { demand, what, texts: Vec::new() }
    }

    /// Whether it may come of what the voters do.
    pub fn is_expected(&self, voters: Voters) -> bool {
        voters == Voters::OneDoesNotKeep && self.demand.needs_keeping()
    }

    fn with(mut self, title: &'static str, text: &[u8]) -> Finding {
        self.texts.push((title, text.to_vec()));
        self
    }
}

impl From<Failure> for Finding {
    fn from(failure: Failure) -> Finding {
        let (what, answer) = match failure {
            Failure::Refused(number) => (format!("a call is refused with {number}"), Vec::new()),
            Failure::Unexpected(answer) => ("no such call has this answer".to_string(), answer),
        };
        Finding::new(Demand::Answers, what).with("the answer", &answer)
    }
}

/// Of each demand the first finding.
pub(super) fn findings(history: &History) -> Vec<Finding> {
    let elections = &history.elections;
    let found = [
        elections.iter().find_map(miscount),
        change_by_open(elections),
        elections.iter().find_map(refused_adoption),
        two_bundles(elections),
        rivals(&history.bundles),
        other_than_union(history),
    ];
    found.into_iter().flatten().collect()
}

fn miscount(election: &Election) -> Option<Finding> {
    let (edit, count, recount) = (election.edit, election.count, election.recount());
    let adopted = election.adoption.map_or(recount, |adoption| adoption.count);
    let what = format!("edit {edit}: {count:?}, adopted {adopted:?}, by the bundles {recount:?}");
    let is_same = count == recount && adopted == recount;
    (!is_same).then(|| Finding::new(Demand::Count, what))
}

fn change_by_open(elections: &[Election]) -> Option<Finding> {
    let before = std::iter::once(&b""[..]).chain(elections.iter().map(|it| &it.record[..]));
    let is_unchanged = |(election, before): &(&Election, &[u8])| {
        let no_page = |adoption: Adoption| adoption.undone == 0 && adoption.redone == 0;
        election.adoption.is_ok_and(no_page) && election.record == *before
    };
    let mut open = elections.iter().zip(before).filter(|it| it.0.won().is_none());
    let (election, before) = open.find(|it| !is_unchanged(it))?;
    let what = format!("the open election on {} is refused or changes the bench", election.edit);
    let finding = Finding::new(Demand::OpenAdoption, what);
    Some(finding.with("its record before", before).with("its record after", &election.record))
}

fn refused_adoption(election: &Election) -> Option<Finding> {
    let (bundle, number) = (election.won()?, election.adoption.err()?);
    let what = format!("the bundle that {} won with is refused with {number}", election.edit);
    let finding = Finding::new(Demand::WonAdoption, what);
    Some(finding.with("the bundle", bundle).with("the bench's record", &election.record))
}

fn two_bundles(elections: &[Election]) -> Option<Finding> {
    let mut won: BTreeMap<u16, &[u8]> = BTreeMap::new();
    elections.iter().find_map(|election| {
        let (edit, later) = (election.edit, election.won()?);
        let earlier = *won.entry(edit).or_insert(later);
        let finding = || {
            let what = format!("edit {edit} wins with two bundles");
            let finding = Finding::new(Demand::OneBundle, what);
            finding.with("won earlier", earlier).with("won later", later)
        };
        (earlier != later).then(finding)
    })
}

fn rivals(bundles: &[Bundle]) -> Option<Finding> {
    let mut pairs = bundles.iter().flat_map(|one| bundles.iter().map(move |other| (one, other)));
    pairs.find_map(|(one, other)| {
        let edit = one.never().find(|&edit| other.must().any(|must| must == edit))?;
        let what = format!("edit {edit} can never stand in one won bundle and must in another");
        let finding = Finding::new(Demand::NoRivals, what).with("it can never stand", &one.text);
        Some(finding.with("it must stand", &other.text))
    })
}

fn other_than_union(history: &History) -> Option<Finding> {
    let record = history.elections.last().map_or(&b""[..], |election| &election.record);
    let union = &history.union;
    let what = match union.refused {
        Some(number) => format!("the union of the won bundles is refused with {number}"),
        None if record != union.text => "the bench's record is not the union".to_string(),
        None => return None,
    };
    let finding = Finding::new(Demand::Union, what).with("the union", &union.text);
    Some(finding.with("the bench's record", record))
}
