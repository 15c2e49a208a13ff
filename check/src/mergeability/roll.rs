//! The benches of a history: one roll for all elections, and who keeps its old
//! proposals.

use super::Voters;
use crate::model::{RollRow, BENCHES};
use crate::random::Random;

pub struct Roll {
    pub rows: Vec<RollRow>,
    /// The voter that does not keep its old proposal, if one does not.
    not_keeping: Option<usize>,
}

impl Roll {
    /// Some benches vote, some stand on the roll with weight 0, some do not stand
    /// on it. Few voters with small weights: then groups often have just half.
    pub fn new(voters: Voters, random: &mut Random) -> Roll {
        let mut benches: Vec<u8> = (1..=BENCHES as u8).collect();
        random.shuffle(&mut benches);
        let voting = random.pick(&[2, 3, 3, 4, 5]);
        let most = random.pick(&[1, 2, 3]);
        benches.truncate(voting + random.between(1, 2));
        let mut weight = |place| if place < voting { random.between(1, most) as u16 } else { 0 };
        let row = |(place, bench)| RollRow { bench, weight: weight(place) };
        let mut rows: Vec<RollRow> = benches.into_iter().enumerate().map(row).collect();
        random.shuffle(&mut rows);
        // The heaviest voter is in most of the groups that win.
        let heaviest = rows.iter().max_by_key(|row| row.weight).map(|row| row.bench.into());
        Roll { rows, not_keeping: heaviest.filter(|_| voters == Voters::OneDoesNotKeep) }
    }

    /// None if the bench does not stand on the roll.
    pub fn weight(&self, bench: usize) -> Option<u16> {
        let row = self.rows.iter().find(|row| usize::from(row.bench) == bench);
        row.map(|row| row.weight)
    }

    /// Whether the bench has a weight above 0.
    pub fn is_voter(&self, bench: usize) -> bool {
        self.weight(bench).is_some_and(|weight| weight > 0)
    }

    pub fn voters(&self) -> Vec<usize> {
        (1..=BENCHES).filter(|&bench| self.is_voter(bench)).collect()
    }

    /// Benches without weight do as they like.
    pub fn keeps(&self, bench: usize) -> bool {
        self.is_voter(bench) && self.not_keeping != Some(bench)
    }

    /// The lines that lend it.
    pub fn lines(&self) -> String {
        let line = |row: &RollRow| format!("roll={} weight={}\n", row.bench, row.weight);
        self.rows.iter().map(line).collect()
    }
}

#[cfg(test)]
mod tests {
    use super::*;

    #[test]
    fn some_vote_some_have_no_weight_and_some_are_off_the_roll() {
        for seed in 0..100 {
            let roll = Roll::new(Voters::Keep, &mut Random::new(seed));
            let count = |weight| (1..=BENCHES).filter(|&it| roll.weight(it) == weight).count();
            assert!((2..=5).contains(&roll.voters().len()));
            assert!((1..=2).contains(&count(Some(0))));
            assert!(count(None) >= 1);
        }
    }

    #[test]
    fn voters_keep_but_for_one_if_that_is_planted() {
        for seed in 0..100 {
            let count = |voters| {
                let roll = Roll::new(voters, &mut Random::new(seed));
                (1..=BENCHES).filter(|&bench| roll.keeps(bench)).count()
            };
            let voters = Roll::new(Voters::Keep, &mut Random::new(seed)).voters().len();
            assert_eq!(count(Voters::Keep), voters);
            assert_eq!(count(Voters::OneDoesNotKeep), voters - 1);
        }
    }
}
