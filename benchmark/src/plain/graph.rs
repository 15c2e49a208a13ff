//! Constraints as adjacency lists, edits by their index.

use super::record::Record;
use check::model::{Constraint, Rule};
use std::cmp::Reverse;
use std::collections::BinaryHeap;
use std::ops::Index;

/// How many indexes there are at most, INIT's included.
pub const SIZE_LIMIT: usize = 128;

/// A constraint with indexes for names.
#[derive(Clone, Copy)]
pub struct Link {
    left: u8,
    pub rule: Rule,
    right: u8,
}

impl Link {
    pub fn new(left: usize, rule: Rule, right: usize) -> Link {
        Link { left: left as u8, rule, right: right as u8 }
    }

    pub fn left(self) -> usize {
        self.left.into()
    }

    pub fn right(self) -> usize {
        self.right.into()
    }
}

/// A list of indexes for each index, all in one flat array.
#[derive(Clone)]
pub struct Lists {
    starts: [u16; SIZE_LIMIT + 1],
    items: Vec<u8>,
}

impl Lists {
    /// Pairs of an owner of a list and an item of it.
    pub fn new(pairs: impl Iterator<Item = (usize, usize)> + Clone) -> Lists {
        let mut starts = [0; SIZE_LIMIT + 1];
        for (owner, _) in pairs.clone() {
            starts[owner + 1] += 1;
        }
        for owner in 0..SIZE_LIMIT {
            starts[owner + 1] += starts[owner];
        }
        let mut items = vec![0; usize::from(starts[SIZE_LIMIT])];
        let mut next = starts;
        for (owner, item) in pairs {
            items[usize::from(next[owner])] = item as u8;
            next[owner] += 1;
        }
        Lists { starts, items }
    }
}

impl Index<usize> for Lists {
    type Output = [u8];

    fn index(&self, owner: usize) -> &[u8] {
        &self.items[usize::from(self.starts[owner])..usize::from(self.starts[owner + 1])]
    }
}

/// How an edit stands to a set in which a ring is looked for.
#[derive(Clone, Copy, PartialEq, Eq)]
pub enum State {
    Outside,
    Waiting,
    OnTheWay,
    Passed,
}

/// A set of edits.
pub type Set = [State; SIZE_LIMIT];

pub const EMPTY: Set = [State::Outside; SIZE_LIMIT];

/// The constraints by their rules.
#[derive(Clone)]
pub struct Graph {
    /// To each edit those that enable it.
    enablers: Lists,
    /// To each edit those that it is notafter.
    followers: Lists,
    /// All constraints in the order of the table.
    links: Vec<Link>,
    size: usize,
}

impl Graph {
    /// The graph of a record, its names resolved.
    pub fn of(record: &Record) -> Graph {
        let index = |name| record.known_index(name);
        let rows = record.constraints.iter();
        let link = |row: &Constraint| Link::new(index(row.left), row.rule, index(row.right));
        Graph::new(record.size(), rows.map(link).collect())
    }

    pub fn new(size: usize, links: Vec<Link>) -> Graph {
        let of = |rule| links.iter().filter(move |link| link.rule == rule);
        let enablers = of(Rule::Enables).map(|link| (link.right(), link.left()));
        let followers = of(Rule::NotAfter).map(|link| (link.left(), link.right()));
        let (enablers, followers) = (Lists::new(enablers), Lists::new(followers));
        Graph { enablers, followers, links, size }
    }

    pub fn size(&self) -> usize {
        self.size
    }

    pub fn links(&self) -> &[Link] {
        &self.links
    }

    pub fn enablers(&self) -> &Lists {
        &self.enablers
    }

    /// To each edit those that it enables.
    pub fn enabled(&self) -> Lists {
        let enables = self.links.iter().filter(|link| link.rule == Rule::Enables);
        Lists::new(enables.map(|link| (link.left(), link.right())))
    }

    /// The noncommuting pairs without a recorded order.
    pub fn unordered_pairs(&self) -> impl Iterator<Item = (usize, usize)> + '_ {
        let pairs = self.links.iter().filter(|link| link.rule == Rule::Noncommuting);
        let pairs = pairs.map(|link| (link.left(), link.right()));
        pairs.filter(|&(one, other)| {
            !self.is_not_after(one, other) && !self.is_not_after(other, one)
        })
    }

    /// Whether "one notafter other" is recorded.
    pub fn is_not_after(&self, one: usize, other: usize) -> bool {
        self.followers[one].contains(&(other as u8))
    }

    /// Takes an edit and its needs into the set; gives what is new in it.
    pub fn take_needs(&self, edit: usize, set: &mut Set) -> Vec<u8> {
        set[edit] = State::Waiting;
        let mut added = Vec::with_capacity(SIZE_LIMIT);
        added.push(edit as u8);
        let mut next = 0;
        while next < added.len() {
            for &enabler in &self.enablers[usize::from(added[next])] {
                if set[usize::from(enabler)] == State::Outside {
                    set[usize::from(enabler)] = State::Waiting;
                    added.push(enabler);
                }
            }
            next += 1;
        }
        added
    }

    /// Whether the set holds a ring of notafter. It held none before these edits
    /// were added, so a ring passes through one of them.
    pub fn has_ring(&self, mut set: Set, added: &[u8]) -> bool {
        added.iter().any(|&edit| {
            let edit = usize::from(edit);
            set[edit] == State::Waiting && self.meets_ring(edit, &mut set)
        })
    }

    /// Goes on from an edit that waits to all that follow it.
    fn meets_ring(&self, edit: usize, set: &mut Set) -> bool {
        set[edit] = State::OnTheWay;
        for &follower in &self.followers[edit] {
            let follower = usize::from(follower);
            let ring = match set[follower] {
                State::Outside | State::Passed => false,
                State::OnTheWay => true,
                State::Waiting => self.meets_ring(follower, set),
            };
            if ring {
                return true;
            }
        }
        set[edit] = State::Passed;
        false
    }

    /// The edits of a set without ring in order: next is always the lowest one
    /// whose predecessors in the set are placed.
    pub fn ordered(&self, set: &Set) -> Vec<u8> {
        let inside = |edit: usize| set[edit] != State::Outside;
        let mut waited_for = [0u16; SIZE_LIMIT];
        for edit in (0..self.size).filter(|&edit| inside(edit)) {
            self.followers[edit].iter().for_each(|&other| waited_for[usize::from(other)] += 1);
        }
        let is_free = |&edit: &usize| inside(edit) && waited_for[edit] == 0;
        let mut free: BinaryHeap<Reverse<u8>> =
            (0..self.size).filter(is_free).map(|edit| Reverse(edit as u8)).collect();
        let mut order = Vec::with_capacity(self.size);
        while let Some(Reverse(edit)) = free.pop() {
            order.push(edit);
            for &follower in &self.followers[usize::from(edit)] {
                let count = &mut waited_for[usize::from(follower)];
                *count -= 1;
                if *count == 0 && inside(usize::from(follower)) {
                    free.push(Reverse(follower));
                }
            }
        }
        order
    }
}
