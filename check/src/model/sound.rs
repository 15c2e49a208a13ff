//! Soundness and what follows from it: must, never, settled, the bench schedule.

use super::graph::Graph;
use super::{Ground, Record, Rule, INIT};

/// A record that was found sound, with the edits that must stand. Edits are
/// spoken of by their index in the record.
pub struct Sound {
    graph: Graph,
    must: Vec<bool>,
}

impl Sound {
    /// A row is closed under "enables" and holds 0, so each holds the needs of
    /// 0. Those alone, put in order, are a row unless they hold a ring. Hence
    /// the record is sound when they hold none, and they are what must stand.
    pub fn new(record: &Record) -> Result<Sound, Ground> {
        let graph = Graph::new(record);
        let mut must = vec![false; graph.size];
        graph.enablers.mark_from(0, &mut must);
        if graph.has_ring(&must) {
            return Err(Ground::Unsound);
        }
        Ok(Sound { graph, must })
    }

    pub fn must(&self, edit: usize) -> bool {
        self.must[edit]
    }

    /// Whether no sound schedule holds the edit: its needs hold a ring. Needs
    /// include 0 and with it all that must stand.
    pub fn never(&self, edit: usize) -> bool {
        if self.must[edit] {
            return false;
        }
        let mut needs = self.must.clone();
        self.graph.enablers.mark_from(edit, &mut needs);
        self.graph.has_ring(&needs)
    }

    pub fn nevers(&self) -> Vec<bool> {
        (0..self.graph.size).map(|edit| self.never(edit)).collect()
    }

    /// For each edit whether it is never, or must and serialised.
    pub fn settled(&self, never: &[bool]) -> Vec<bool> {
        let mut serialised = vec![true; self.graph.size];
        for &(one, other) in &self.graph.pairs {
            if !never[one] && !never[other] && !self.has_order(one, other) {
                serialised[one] = false;
                serialised[other] = false;
            }
        }
        let edits = 0..self.graph.size;
        edits.map(|edit| never[edit] || self.must[edit] && serialised[edit]).collect()
    }

    fn has_order(&self, one: usize, other: usize) -> bool {
        let followers = &self.graph.followers;
        followers[one].contains(&other) || followers[other].contains(&one)
    }

    /// The bench schedule, INIT first, with marks for the hidden edits.
    pub fn schedule(&self, hidden: &[bool]) -> Vec<usize> {
        let mut set = self.must.clone();
        for edit in 1..self.graph.size {
            if set[edit] {
                continue;
            }
            let mut wider = set.clone();
            self.graph.enablers.mark_from(edit, &mut wider);
            // What is in the set already is a must or isn't hidden.
            let barred = (0..self.graph.size)
                .any(|needed| wider[needed] && hidden[needed] && !self.must[needed]);
            if !barred && !self.graph.has_ring(&wider) {
                set = wider;
            }
        }
        self.graph.ordered(&set)
    }

    pub fn schedule_with_nothing_hidden(&self) -> Vec<usize> {
        self.schedule(&vec![false; self.graph.size])
    }
}

/// Whether a row of any numbers is a sound schedule of the record.
pub fn is_sound_schedule(record: &Record, row: &[u32]) -> bool {
    let mut stands: Vec<Option<usize>> = vec![None; record.edits.len() + 1];
    for (place, &number) in row.iter().enumerate() {
        let name = u16::try_from(number).ok();
        let Some(edit) = name.and_then(|name| record.index(name)) else { return false };
        if stands[edit].replace(place).is_some() {
            return false;
        }
    }
    let stand = |name| stands[record.index(name).expect("the ends of a constraint are known")];
    row.first() == Some(&u32::from(INIT))
        && record.constraints.iter().all(|row| {
            match (row.rule, stand(row.left), stand(row.right)) {
                (Rule::NotAfter, Some(left), Some(right)) => left < right,
                (Rule::Enables, None, Some(_)) => false,
                _ => true,
            }
        })
}
