//! A random run of document 02's request A8, which 000 calls mergeability:
//! with one roll, and with voters that keep their old proposals, all that is won
//! over time, from whatever older and newer proposals, forms one sound record.
//!
//! A history is made by the calls themselves. Proposals are what they answer, and
//! what has to hold is read off their answers.

pub(crate) mod answers;
mod counts;
mod elections;
mod findings;
mod pool;
mod proposals;
mod roll;
#[cfg(test)]
mod tests;

pub use counts::Counts;
pub use findings::{Demand, Finding};

use crate::compare::Other;
use crate::model::text::write_text;
use crate::model::{Constraint, Edit, Record};
use crate::random::Random;
use answers::{Answers, Failure, Mark};
use elections::Election;
use findings::findings;
use proposals::{read, Sent};
use roll::Roll;
use std::collections::BTreeSet;

/// What the voters do.
#[derive(Clone, Copy, PartialEq, Eq, Debug)]
pub enum Voters {
    Keep,
    /// A fault to be found: one of them forgets its old proposal.
    OneDoesNotKeep,
}

/// Runs the history of a seed, counts what occurred, and gives what was found not
/// to hold.
pub fn run(seed: u64, voters: Voters, other: &mut dyn Other, counts: &mut Counts) -> Vec<Finding> {
    let findings = match History::new(seed, voters, other) {
        Ok(history) => {
            counts.count(&history);
            findings(&history)
        }
        Err(failure) => vec![failure.into()],
    };
    counts.count_findings(&findings);
    findings
}

/// What was sent and won over time.
struct History {
    roll: Roll,
    sent: Sent,
    elections: Vec<Election>,
    /// Those that were won, each once.
    bundles: Vec<Bundle>,
    union: Union,
}

/// A won bundle and the report on it alone.
struct Bundle {
    text: Vec<u8>,
    marks: Vec<Mark>,
}

/// All won bundles in one text.
struct Union {
    text: Vec<u8>,
    /// The number if it is refused.
    refused: Option<u32>,
}

impl History {
    fn new(seed: u64, voters: Voters, other: &mut dyn Other) -> Result<History, Failure> {
        let mut random = Random::new(seed ^ 0x6d65_7267);
        let roll = Roll::new(voters, &mut random);
        let sent = proposals::send(&roll, &mut random, other)?;
        let elections = elections::hold(&roll, &sent, &mut random, other)?;
        let won: BTreeSet<&[u8]> = elections.iter().filter_map(Election::won).collect();
        let bundles = won.iter().map(|text| Bundle::new(text, other)).collect::<Result<_, _>>()?;
        let union = Union::new(won, other)?;
        Ok(History { roll, sent, elections, bundles, union })
    }
}

impl Bundle {
    fn new(text: &[u8], other: &mut dyn Other) -> Result<Bundle, Failure> {
        let marks = report(text, other)?;
        Ok(Bundle { text: text.to_vec(), marks })
    }

    fn must(&self) -> impl Iterator<Item = u32> + '_ {
        self.marks.iter().filter(|mark| mark.must).map(|mark| mark.edit)
    }

    fn never(&self) -> impl Iterator<Item = u32> + '_ {
        self.marks.iter().filter(|mark| mark.never).map(|mark| mark.edit)
    }
}

impl Union {
    fn new(bundles: BTreeSet<&[u8]>, other: &mut dyn Other) -> Result<Union, Failure> {
        let text = united(bundles)?;
        match report(&text, other) {
            Ok(_) => Ok(Union { text, refused: None }),
            Err(Failure::Refused(number)) => Ok(Union { text, refused: Some(number) }),
            Err(failure) => Err(failure),
        }
    }
}

/// The lines of all texts in order, each once. A name with two bodies stands there
/// twice or more, which no record has.
fn united(texts: BTreeSet<&[u8]>) -> Result<Vec<u8>, Failure> {
    let mut edits: Vec<Edit> = Vec::new();
    let mut constraints: BTreeSet<Constraint> = BTreeSet::new();
    for text in texts {
        let record = read(text)?;
        edits.extend(record.edits);
        constraints.extend(record.constraints);
    }
    edits.sort_by_key(|edit| edit.name);
    edits.dedup();
    let mut text = Vec::new();
    write_text(&Record { edits, constraints: constraints.into_iter().collect() }, &mut text);
    Ok(text)
}

fn report(text: &[u8], other: &mut dyn Other) -> Result<Vec<Mark>, Failure> {
    let printed = other.shelf(text);
    let mut answers = Answers::new(&printed);
    let marks = answers.report()?;
    answers.end().map(|()| marks)
}
