//! The edits and constraints that the benches of a history come to know.

use crate::model::{Constraint, Edit, Record, Rule};
use crate::random::tables::{any_constraint, direction, Recipe, World};
use crate::random::Random;
use std::collections::BTreeSet;

pub struct Pool {
    /// In the order in which they become known.
    pub edits: Vec<Edit>,
    constraints: BTreeSet<Constraint>,
}

impl Pool {
    pub fn new(world: &World, random: &mut Random) -> Pool {
        let size = world.edits.len();
        let straight = Recipe {
            edits: size,
            constraints: random.between(size, 2 * size),
            decisions: random.pick(&[0, 10]),
            noncommuting: random.pick(&[40, 80]),
            straight: true,
        };
        let Record { mut edits, constraints } = world.record(straight, random);
        let mut constraints: BTreeSet<Constraint> = constraints.into_iter().collect();
        let any = Recipe { straight: false, ..straight };
        for _ in 0..random.below(5) {
            constraints.extend(any_constraint(&edits, any, random));
        }
        // What has to come first becomes known first, as a rule: what comes before
        // a settled edit and is known too late is in no proposal that keeps the old.
        edits.sort_unstable_by_key(|edit| direction(edit.name));
        Pool { edits, constraints }
    }

    /// The first so many edits but for a few, and what one bench says of these.
    /// Benches say different things, so that they have something to dispute.
    pub fn part(&self, count: usize, random: &mut Random) -> Record {
        let mut edits = self.edits[..count].to_vec();
        edits.retain(|_| !random.one_in(4));
        edits.sort_unstable_by_key(|edit| edit.name);
        let part = Record { edits, constraints: Vec::new() };
        let inside = |row: &&Constraint| part.knows(row.left) && part.knows(row.right);
        let inside = self.constraints.iter().filter(inside);
        let mut said: BTreeSet<Constraint> = inside.flat_map(|&row| said_of(row, random)).collect();
        let left_out = part.edits.iter().filter(|_| random.one_in(10));
        said.extend(left_out.map(|edit| Constraint::aborted(edit.name)));
        Record { constraints: said.into_iter().collect(), ..part }
    }
}

/// A bench may not know a constraint yet, and may have an order for a noncommuting
/// pair.
fn said_of(row: Constraint, random: &mut Random) -> Vec<Constraint> {
    let Constraint { left, rule, right } = row;
    match random.below(6) {
        0 => vec![],
        1 if rule == Rule::Noncommuting => vec![row, Constraint::not_after(left, right)],
        2 if rule == Rule::Noncommuting => vec![row, Constraint::not_after(right, left)],
        _ => vec![row],
    }
}

#[cfg(test)]
mod tests {
    use super::*;
    use crate::model::Tables;

    #[test]
    fn parts_are_records_that_grow_with_their_bodies() {
        for seed in 0..100 {
            let mut random = Random::new(seed);
            let pool = Pool::new(&World::new(6, &mut random), &mut random);
            for count in 0..=pool.edits.len() {
                let part = pool.part(count, &mut random);
                assert_eq!(Record::lent(&Tables::from(&part)).as_ref(), Ok(&part));
                assert!(part.edits.iter().all(|edit| pool.edits[..count].contains(edit)));
            }
        }
    }
}
