//! The bundle of an edit in a proposal: a small record with the edit and what it
//! stands on.

use super::graph::{links, Lists};
use super::{Constraint, Record, Rule, Sound};

/// A sound record made ready to give the bundles of its edits.
pub struct Bundles<'record> {
    record: &'record Record,
    links: Vec<(usize, Rule, usize)>,
    /// To each edit those that come with it directly.
    companions: Lists,
}

impl<'record> Bundles<'record> {
    pub fn new(record: &'record Record) -> Bundles<'record> {
        let links = links(record);
        let companions = companions(record, &links);
        let companions = Lists::new(record.edits.len() + 1, companions.iter().copied());
        Bundles { record, links, companions }
    }

    pub fn of(&self, edit: usize) -> Record {
        let mut members = vec![false; self.record.edits.len() + 1];
        self.companions.mark_from(edit, &mut members);
        self.part(&members)
    }

    /// The members with the constraints whose ends are members, or a member and 0.
    fn part(&self, members: &[bool]) -> Record {
        let inside = |&(left, _, right): &(usize, Rule, usize)| {
            members[left] && (members[right] || right == 0)
        };
        let edits = self.record.edits.iter().zip(&members[1..]);
        let constraints = self.record.constraints.iter().zip(&self.links);
        Record {
            edits: edits.filter(|(_, member)| **member).map(|(edit, _)| *edit).collect(),
            constraints: constraints
                .filter(|(_, link)| inside(link))
                .map(|(row, _)| *row)
                .collect(),
        }
    }
}

/// Pairs of an edit and one that comes with it: one that it is after, one that
/// enables it, or one that doesn't commute with it and isn't ordered behind it.
/// "Enables 0" is not followed, since 0 is in no bundle.
fn companions(record: &Record, links: &[(usize, Rule, usize)]) -> Vec<(usize, usize)> {
    let mut pairs = Vec::with_capacity(links.len() * 2);
    for (row, &(left, rule, right)) in record.constraints.iter().zip(links) {
        match rule {
            Rule::NotAfter => pairs.push((right, left)),
            Rule::Enables if right == 0 => {}
            Rule::Enables => pairs.push((right, left)),
            Rule::Noncommuting => {
                if !record.has(Constraint::not_after(row.right, row.left)) {
                    pairs.push((right, left));
                }
                if !record.has(Constraint::not_after(row.left, row.right)) {
                    pairs.push((left, right));
                }
            }
        }
    }
    pairs
}

/// Whether each member of a bundle is settled in that small record taken alone.
pub fn is_eligible(bundle: &Record) -> bool {
    let sound = Sound::new(bundle).expect("a part of a sound record is sound");
    sound.settled(&sound.nevers()).into_iter().all(|settled| settled)
}
