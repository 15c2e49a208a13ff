//! The bundle of an edit: a small record with the edit and what it stands on.

use super::graph::{Graph, Link, Lists, SIZE_LIMIT};
use super::record::Record;
use super::sound::Sound;
use check::model::{Constraint, Edit, Rule};

#[derive(Clone)]
pub struct Bundle {
    pub edits: Vec<Edit>,
    pub constraints: Vec<Constraint>,
    /// The constraints by the indexes of these edits.
    links: Vec<Link>,
}

impl PartialEq for Bundle {
    /// The links follow from the rest.
    fn eq(&self, other: &Bundle) -> bool {
        self.edits == other.edits && self.constraints == other.constraints
    }
}

impl Bundle {
    /// Whether each member is settled in this small record taken alone.
    pub fn is_eligible(&self) -> bool {
        let sound = self.sound();
        sound.settled(&sound.nevers())[..=self.edits.len()].iter().all(|&settled| settled)
    }

    /// Whether an edit of the bundle must stand in it, and whether it can never.
    pub fn verdict(&self, name: u16) -> (bool, bool) {
        let place = self.edits.iter().position(|edit| edit.name == name);
        let index = place.expect("a bundle has its edit") + 1;
        let sound = self.sound();
        (sound.must(index), sound.never(index))
    }

    fn sound(&self) -> Sound {
        let graph = Graph::new(self.edits.len() + 1, self.links.clone());
        Sound::of(graph).expect("a part of a sound record is sound")
    }
}

/// A sound record made ready to give the bundles of its edits.
pub struct Bundles<'record> {
    record: &'record Record,
    graph: &'record Graph,
    /// To each edit those that come with it directly.
    companions: Lists,
}

impl<'record> Bundles<'record> {
    pub fn new(record: &'record Record, sound: &'record Sound) -> Bundles<'record> {
        let graph = sound.graph();
        Bundles { record, graph, companions: Lists::new(companions(graph).iter().copied()) }
    }

    pub fn of(&self, edit: usize) -> Bundle {
        self.part(&self.members(edit))
    }

    fn members(&self, edit: usize) -> [bool; SIZE_LIMIT] {
        let mut members = [false; SIZE_LIMIT];
        members[edit] = true;
        let mut waiting = vec![edit];
        while let Some(member) = waiting.pop() {
            for &other in &self.companions[member] {
                let other = usize::from(other);
                if !members[other] {
                    members[other] = true;
                    waiting.push(other);
                }
            }
        }
        members
    }

    /// The members with the constraints whose ends are members, or a member and 0.
    fn part(&self, members: &[bool; SIZE_LIMIT]) -> Bundle {
        let count = self.graph.links().len();
        let mut bundle = Bundle {
            edits: Vec::with_capacity(self.record.edits.len()),
            constraints: Vec::with_capacity(count),
            links: Vec::with_capacity(count),
        };
        let mut indexes = [0; SIZE_LIMIT];
        for (place, &edit) in self.record.edits.iter().enumerate() {
            if members[place + 1] {
                bundle.edits.push(edit);
                indexes[place + 1] = bundle.edits.len();
            }
        }
        for (&row, link) in self.record.constraints.iter().zip(self.graph.links()) {
            let (left, right) = (link.left(), link.right());
            if members[left] && (members[right] || right == 0) {
                bundle.constraints.push(row);
                bundle.links.push(Link::new(indexes[left], link.rule, indexes[right]));
            }
        }
        bundle
    }
}

/// Pairs of an edit and one that comes with it: one that it is after, one that
/// enables it, or one that doesn't commute with it and isn't ordered behind it.
fn companions(graph: &Graph) -> Vec<(usize, usize)> {
    let mut pairs = Vec::with_capacity(graph.links().len());
    for link in graph.links() {
        let (left, right) = (link.left(), link.right());
        match link.rule {
            Rule::Enables if right == 0 => {}
            Rule::NotAfter | Rule::Enables => pairs.push((right, left)),
            Rule::Noncommuting => {
                if !graph.is_not_after(right, left) {
                    pairs.push((right, left));
                }
                if !graph.is_not_after(left, right) {
                    pairs.push((left, right));
                }
            }
        }
    }
    pairs
}
