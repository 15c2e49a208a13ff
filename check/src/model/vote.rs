//! Rolls, votes and elections.

use super::{is_eligible, Bundles, Ground, Record, Sound, Tables};

/// How many benches there are.
pub const BENCHES: usize = 8;

#[derive(Clone, Copy, PartialEq, Eq, Debug)]
pub struct RollRow {
    pub bench: u8,
    pub weight: u16,
}

#[derive(Clone, PartialEq, Eq, Debug)]
pub struct Election {
    /// The bundle of the group that won; none while the election is open.
    pub won: Option<Record>,
    pub greatest: u32,
    pub silent: u32,
    pub total: u32,
}

/// The proposals of a vote on an edit, if there is no fault: first in the rows of
/// the proposals and the roll, then in the edit and the proposals' soundness.
fn checked_ballot(
    proposals: &[Tables; BENCHES],
    roll: &[RollRow],
    number: u32,
) -> Result<Vec<Record>, Ground> {
    let proposals = proposals.iter().map(Record::lent).collect::<Result<Vec<_>, _>>()?;
    check_roll(roll)?;
    let known = proposals.iter().map(|proposal| proposal.named(number));
    known.reduce(Result::or).expect("there are proposals")?;
    for proposal in &proposals {
        Sound::new(proposal)?;
    }
    Ok(proposals)
}

fn check_roll(roll: &[RollRow]) -> Result<(), Ground> {
    let mut seen = [false; BENCHES];
    for row in roll {
        let place = usize::from(row.bench).wrapping_sub(1);
        let seen = seen.get_mut(place).ok_or(Ground::Roll)?;
        if std::mem::replace(seen, true) {
            return Err(Ground::Roll);
        }
    }
    Ok(())
}

/// The election on an edit over lent proposals and a lent roll.
pub fn election(
    proposals: &[Tables; BENCHES],
    roll: &[RollRow],
    number: u32,
) -> Result<Election, Ground> {
    let proposals = checked_ballot(proposals, roll, number)?;
    Ok(elect(&proposals, roll, number as u16))
}

/// The election's answers on the rows of the roll so far, before the first row and
/// after each: on every beginning of the roll it is held anew.
pub fn tally(
    proposals: &[Tables; BENCHES],
    roll: &[RollRow],
    number: u32,
) -> Result<Vec<Election>, Ground> {
    let proposals = checked_ballot(proposals, roll, number)?;
    let beginnings = (0..=roll.len()).map(|count| &roll[..count]);
    Ok(beginnings.map(|rows| elect(&proposals, rows, number as u16)).collect())
}

/// The election on an edit's name over checked proposals and a checked roll.
fn elect(proposals: &[Record], roll: &[RollRow], name: u16) -> Election {
    let mut groups: Vec<(Record, u32)> = Vec::new();
    let (mut silent, mut total) = (0, 0);
    for row in roll {
        let weight = u32::from(row.weight);
        total += weight;
        match vote(&proposals[usize::from(row.bench) - 1], name) {
            Some(bundle) => join_group(&mut groups, bundle, weight),
            None => silent += weight,
        }
    }
    let greatest = groups.iter().map(|group| group.1).max().unwrap_or(0);
    let won = groups.into_iter().find(|group| 2 * group.1 > total).map(|group| group.0);
    Election { won, greatest, silent, total }
}

/// The edit's eligible bundle; none if the bench is silent.
fn vote(proposal: &Record, name: u16) -> Option<Record> {
    let edit = proposal.index(name)?;
    Some(Bundles::new(proposal).of(edit)).filter(is_eligible)
}

fn join_group(groups: &mut Vec<(Record, u32)>, bundle: Record, weight: u32) {
    match groups.iter_mut().find(|group| group.0 == bundle) {
        Some(group) => group.1 += weight,
        None => groups.push((bundle, weight)),
    }
}
