//! The elections of a history, held over older and newer proposals and adopted
//! one after another on one bench.

use super::answers::{Adoption, Answers, Count, Failure};
use super::proposals::{Proposal, Sent};
use super::roll::Roll;
use crate::compare::Other;
use crate::lent::lending;
use crate::model::{Tables, BENCHES};
use crate::random::Random;
use std::collections::BTreeMap;

/// The vote of a bench on the roll.
pub struct Vote {
    pub weight: u32,
    /// None if it is silent.
    pub bundle: Option<Vec<u8>>,
    /// Whether the bench had sent a newer proposal than the one that is held.
    pub is_older: bool,
}

/// What is answered to an election and to its adoption.
pub struct Election {
    pub edit: u16,
    pub votes: Vec<Vote>,
    pub count: Count,
    /// The number if it is refused.
    pub adoption: Result<Adoption, u32>,
    /// The text of the bench's record after it.
    pub record: Vec<u8>,
}

impl Election {
    /// The count of the votes, whatever was said of it.
    pub fn recount(&self) -> Count {
        let weight = |vote: &Vote| vote.weight;
        let total = self.votes.iter().map(weight).sum();
        let silent = self.votes.iter().filter(|vote| vote.bundle.is_none()).map(weight).sum();
        let greatest = self.groups().into_values().max().unwrap_or(0);
        Count { won: 2 * greatest > total, greatest, silent, total }
    }

    /// The bundle that has more than half of the whole weight.
    pub fn won(&self) -> Option<&[u8]> {
        let total = self.recount().total;
        let won = self.groups().into_iter().find(|&(_, weight)| 2 * weight > total);
        won.map(|(bundle, _)| bundle)
    }

    /// The weight of each bundle.
    fn groups(&self) -> BTreeMap<&[u8], u32> {
        let mut groups = BTreeMap::new();
        for vote in &self.votes {
            if let Some(bundle) = vote.bundle.as_deref() {
                *groups.entry(bundle).or_default() += vote.weight;
            }
        }
        groups
    }

    fn read(edit: u16, voting: Vec<Vote>, answers: &mut Answers) -> Result<Election, Failure> {
        let count = answers.count()?;
        let vote = |vote| Ok(Vote { bundle: read_bundle(answers)?, ..vote });
        let votes = voting.into_iter().map(vote).collect::<Result<Vec<Vote>, Failure>>()?;
        let adoption = match answers.adoption() {
            Ok(adoption) => Ok(adoption),
            Err(Failure::Refused(number)) => Err(number),
            Err(failure) => return Err(failure),
        };
        Ok(Election { edit, votes, count, adoption, record: answers.record()? })
    }
}

/// An edit that a proposal doesn't know gets 5, and the bench is silent.
fn read_bundle(answers: &mut Answers) -> Result<Option<Vec<u8>>, Failure> {
    match answers.bundle() {
        Err(Failure::Refused(5)) => Ok(None),
        bundle => bundle,
    }
}

/// Holds elections as time goes by, in one log.
pub fn hold(
    roll: &Roll,
    sent: &Sent,
    random: &mut Random,
    other: &mut dyn Other,
) -> Result<Vec<Election>, Failure> {
    let count = random.between(12, 20);
    let mut moments: Vec<usize> = (0..count).map(|_| random.between(1, sent.calls)).collect();
    moments.sort_unstable();
    let polls: Vec<Poll> = moments.iter().map(|&moment| Poll::new(sent, moment, random)).collect();
    let log: String = polls.iter().map(|poll| poll.log(roll)).collect();
    let answers = other.replay((roll.lines() + &log).as_bytes());
    let mut answers = Answers::new(&answers);
    let elections = polls.iter().flat_map(|poll| poll.edits.iter().map(move |&edit| (poll, edit)));
    let elections = elections
        .map(|(poll, edit)| Election::read(edit, poll.voting(roll), &mut answers))
        .collect::<Result<Vec<Election>, Failure>>()?;
    answers.end().map(|()| elections)
}

/// What is held of a bench: a proposal of its row, or none.
struct Held<'sent> {
    proposal: Option<&'sent Proposal>,
    is_older: bool,
}

impl<'sent> Held<'sent> {
    /// The newest one or any, whatever is held of other benches.
    fn any(row: &'sent [Proposal], random: &mut Random) -> Held<'sent> {
        let is_newest = random.one_in(2);
        let count = if is_newest { row.len() } else { random.between(0, row.len()) };
        Held { proposal: row[..count].last(), is_older: count < row.len() }
    }
}

/// Some elections over the same proposals.
struct Poll<'sent> {
    held: [Held<'sent>; BENCHES],
    edits: Vec<u16>,
}

impl<'sent> Poll<'sent> {
    fn new(sent: &'sent Sent, moment: usize, random: &mut Random) -> Poll<'sent> {
        let held = std::array::from_fn(|place| Held::any(sent.row(place + 1, moment), random));
        let mut poll = Poll { held, edits: Vec::new() };
        let names = poll.names();
        if !names.is_empty() {
            poll.edits = (0..random.between(2, 5)).map(|_| random.pick(&names)).collect();
        }
        poll
    }

    /// A name stands here once for each proposal that has it: many know it, and the
    /// election is won the more often.
    fn names(&self) -> Vec<u16> {
        let proposals = self.held.iter().filter_map(|held| held.proposal);
        proposals.flat_map(|proposal| &proposal.record.edits).map(|edit| edit.name).collect()
    }

    fn log(&self, roll: &Roll) -> String {
        let lent = self.held.iter().zip(1..).map(|(held, bench)| {
            let tables = held.proposal.map(|proposal| Tables::from(&proposal.record));
            lending(bench, &tables.unwrap_or_default())
        });
        let elections = self.edits.iter().map(|&edit| election_log(edit, roll));
        lent.chain(elections).collect()
    }

    /// The votes, with their bundles still to be read.
    fn voting(&self, roll: &Roll) -> Vec<Vote> {
        let vote = |bench: usize, weight: u16| Vote {
            weight: weight.into(),
            bundle: None,
            is_older: self.held[bench - 1].is_older,
        };
        roll.rows.iter().map(|row| vote(row.bench.into(), row.weight)).collect()
    }
}

/// The count, the bundle of each bench on the roll, the adoption, and the record
/// after it.
fn election_log(edit: u16, roll: &Roll) -> String {
    let bundle = |bench| format!("do=bundle edit={edit} lent={bench}\n");
    let bundles: String = roll.rows.iter().map(|row| bundle(row.bench)).collect();
    format!("do=elect edit={edit}\n{bundles}do=adopt edit={edit}\nask=text\n")
}
