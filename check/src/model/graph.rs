//! A record's constraints as lists of neighbours, edits by their index.

use super::{Record, Rule};
use std::cmp::Reverse;
use std::collections::BinaryHeap;
use std::ops::Index;

/// A list of indexes for each index, all in one flat array.
pub struct Lists {
    starts: Vec<usize>,
    items: Vec<usize>,
}

impl Lists {
    /// Pairs of an owner of a list and an item of it.
    pub fn new(size: usize, pairs: impl Iterator<Item = (usize, usize)> + Clone) -> Lists {
        let mut starts = vec![0; size + 1];
        for (owner, _) in pairs.clone() {
            starts[owner + 1] += 1;
        }
        for owner in 0..size {
            starts[owner + 1] += starts[owner];
        }
        let mut items = vec![0; starts[size]];
        let mut next = starts.clone();
        for (owner, item) in pairs {
            items[next[owner]] = item;
            next[owner] += 1;
        }
        Lists { starts, items }
    }

    /// Marks `start` and whatever its lists lead to. What is marked before is
    /// taken as followed already.
    pub fn mark_from(&self, start: usize, marks: &mut [bool]) {
        if std::mem::replace(&mut marks[start], true) {
            return;
        }
        let mut waiting = vec![start];
        while let Some(owner) = waiting.pop() {
            for &item in &self[owner] {
                if !std::mem::replace(&mut marks[item], true) {
                    waiting.push(item);
                }
            }
        }
    }
}

impl Index<usize> for Lists {
    type Output = [usize];

    fn index(&self, owner: usize) -> &[usize] {
        &self.items[self.starts[owner]..self.starts[owner + 1]]
    }
}

/// The constraints by their rules.
pub struct Graph {
    /// To each edit those that enable it.
    pub enablers: Lists,
    /// To each edit those that it is notafter.
    pub followers: Lists,
    /// The noncommuting pairs.
    pub pairs: Vec<(usize, usize)>,
    /// How many edits there are, INIT included.
    pub size: usize,
}

impl Graph {
    pub fn new(record: &Record) -> Graph {
        let links = links(record);
        let size = record.edits.len() + 1;
        let of = |rule| links.iter().filter(move |link| link.1 == rule);
        Graph {
            enablers: Lists::new(size, of(Rule::Enables).map(|&(left, _, right)| (right, left))),
            followers: Lists::new(size, of(Rule::NotAfter).map(|&(left, _, right)| (left, right))),
            pairs: of(Rule::Noncommuting).map(|&(left, _, right)| (left, right)).collect(),
            size,
        }
    }

    /// How many of the marked edits are notafter each marked edit.
    fn predecessor_counts(&self, marks: &[bool]) -> Vec<usize> {
        let mut counts = vec![0; self.size];
        for edit in (0..self.size).filter(|&edit| marks[edit]) {
            for &follower in &self.followers[edit] {
                counts[follower] += 1;
            }
        }
        counts
    }

    /// Whether the marked edits hold a ring of notafter.
    pub fn has_ring(&self, marks: &[bool]) -> bool {
        let mut counts = self.predecessor_counts(marks);
        let marked = || (0..self.size).filter(|&edit| marks[edit]);
        let mut free: Vec<usize> = marked().filter(|&edit| counts[edit] == 0).collect();
        let mut placed = 0;
        while let Some(edit) = free.pop() {
            placed += 1;
            for &follower in self.followers[edit].iter().filter(|&&follower| marks[follower]) {
                counts[follower] -= 1;
                if counts[follower] == 0 {
                    free.push(follower);
                }
            }
        }
        placed < marked().count()
    }

    /// The marked edits, which hold no ring, in order: next is always the lowest
    /// one whose predecessors among them are placed.
    pub fn ordered(&self, marks: &[bool]) -> Vec<usize> {
        let mut counts = self.predecessor_counts(marks);
        let mut free: BinaryHeap<Reverse<usize>> =
            (0..self.size).filter(|&edit| marks[edit] && counts[edit] == 0).map(Reverse).collect();
        let mut order = Vec::with_capacity(self.size);
        while let Some(Reverse(edit)) = free.pop() {
            order.push(edit);
            for &follower in self.followers[edit].iter().filter(|&&follower| marks[follower]) {
                counts[follower] -= 1;
                if counts[follower] == 0 {
                    free.push(Reverse(follower));
                }
            }
        }
        order
    }
}

/// The constraints with indexes for names.
pub fn links(record: &Record) -> Vec<(usize, Rule, usize)> {
    let index = |name| record.index(name).expect("the ends of a checked constraint are known");
    let link = |row: &super::Constraint| (index(row.left), row.rule, index(row.right));
    record.constraints.iter().map(link).collect()
}
