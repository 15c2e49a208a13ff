//! Rolls, votes and elections.

use super::bundle::{Bundle, Bundles};
use super::joining::Joining;
use super::record::Record;
use super::sound::Sound;
use check::model::{is_name, Ground, RollRow, Tables, BENCHES};

/// An election in numbers.
#[derive(Clone, Copy)]
pub struct Outcome {
    pub won: bool,
    pub greatest: u32,
    pub silent: u32,
    pub total: u32,
}

pub struct Election {
    pub outcome: Outcome,
    /// The bundle of the group that won; none while the election is open.
    pub won: Option<Bundle>,
}

/// The election on an edit over lent proposals and a lent roll.
pub fn election(
    proposals: [&Tables; BENCHES],
    roll: &[RollRow],
    number: u32,
) -> Result<Election, Ground> {
    let proposals = checked_ballot(proposals, roll, number)?;
    let mut count = Count::default();
    roll.iter().for_each(|row| count.add(row, &proposals));
    Ok(Election { outcome: count.outcome(), won: count.won() })
}

/// The same election before the first row of the roll and after each, in one pass.
pub fn tally(
    proposals: [&Tables; BENCHES],
    roll: &[RollRow],
    number: u32,
) -> Result<Vec<Outcome>, Ground> {
    let proposals = checked_ballot(proposals, roll, number)?;
    let mut count = Count::default();
    let mut outcomes = Vec::with_capacity(roll.len() + 1);
    outcomes.push(count.outcome());
    for row in roll {
        count.add(row, &proposals);
        outcomes.push(count.outcome());
    }
    Ok(outcomes)
}

/// What the rows of the roll come to so far.
#[derive(Default)]
struct Count {
    groups: Vec<(Bundle, u32)>,
    /// The place of the greatest group, and its weight.
    first: usize,
    greatest: u32,
    silent: u32,
    total: u32,
}

impl Count {
    fn add(&mut self, row: &RollRow, proposals: &[Proposal]) {
        let weight = u32::from(row.weight);
        self.total += weight;
        match proposals[usize::from(row.bench) - 1].vote() {
            Some(bundle) => self.join_group(bundle, weight),
            None => self.silent += weight,
        }
    }

    fn join_group(&mut self, bundle: Bundle, weight: u32) {
        let known = self.groups.iter().position(|group| group.0 == bundle);
        let place = known.unwrap_or(self.groups.len());
        match self.groups.get_mut(place) {
            Some(group) => group.1 += weight,
            None => self.groups.push((bundle, weight)),
        }
        let weight = self.groups[place].1;
        if weight > self.greatest {
            (self.first, self.greatest) = (place, weight);
        }
    }

    fn outcome(&self) -> Outcome {
        let &Count { greatest, silent, total, .. } = self;
        Outcome { won: 2 * greatest > total, greatest, silent, total }
    }

    fn won(mut self) -> Option<Bundle> {
        self.outcome().won.then(|| self.groups.swap_remove(self.first).0)
    }
}

/// A sound proposal.
struct Proposal {
    record: Record,
    sound: Sound,
    /// The index of the edit that is voted on, if the proposal knows it.
    edit: Option<usize>,
}

impl Proposal {
    /// The edit's eligible bundle; none if the bench is silent.
    fn vote(&self) -> Option<Bundle> {
        Some(Bundles::new(&self.record, &self.sound).of(self.edit?)).filter(Bundle::is_eligible)
    }
}

/// Faults in the rows of the proposals and the roll come first, then those of
/// the edit, then the proposals' soundness.
fn checked_ballot(
    proposals: [&Tables; BENCHES],
    roll: &[RollRow],
    number: u32,
) -> Result<Vec<Proposal>, Ground> {
    let proposals = proposals.into_iter().map(Joining::lent).collect::<Result<Vec<_>, _>>()?;
    check_roll(roll)?;
    if !is_name(number) {
        return Err(Ground::Range);
    }
    let edits: Vec<_> = proposals.iter().map(|it| it.record.index(number as u16)).collect();
    if edits.iter().all(Option::is_none) {
        return Err(Ground::Unknown);
    }
    let judged = |(proposal, edit): (Joining, Option<usize>)| {
        let (record, sound) = proposal.judged()?;
        Ok(Proposal { record, sound, edit })
    };
    proposals.into_iter().zip(edits).map(judged).collect()
}

fn check_roll(roll: &[RollRow]) -> Result<(), Ground> {
    let mut seen = [false; BENCHES];
    for row in roll {
        let place = usize::from(row.bench).wrapping_sub(1);
        match seen.get_mut(place) {
            Some(seen) if !*seen => *seen = true,
            _ => return Err(Ground::Roll),
        }
    }
    Ok(())
}
