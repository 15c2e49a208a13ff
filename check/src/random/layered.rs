//! Random records in which edits must stand, or can never stand, and for several
//! reasons: each edit needs the next ones, and some of them form rings.

use super::Random;
use crate::model::{Constraint, Edit, Record, Sound, CONSTRAINT_LIMIT};
use std::collections::BTreeSet;

/// How often a random row is tried for: there may be no more that fit.
const TRY_LIMIT: usize = 2000;

/// A record over these edits that is stored well; most of them are sound.
pub fn layered_record(edits: Vec<Edit>, random: &mut Random) -> Record {
    let mut names: Vec<u16> = edits.iter().map(|edit| edit.name).collect();
    // Names don't follow the chains.
    random.shuffle(&mut names);
    let width = random.pick(&[1, 1, 1, 2, 3, 4]);
    let mut layered = Layered { names, width, rows: BTreeSet::new(), rings_end: 0, random };
    layered.chain();
    for _ in 0..layered.random.pick(&[0, 0, 1, 1, 1, 2, 5]) {
        layered.ring();
    }
    layered.decide();
    layered.fill();
    let mut constraints: Vec<Constraint> = layered.rows.into_iter().collect();
    constraints.truncate(CONSTRAINT_LIMIT);
    let record = Record { edits, constraints };
    match Sound::new(&record).is_ok() || random.one_in(6) {
        true => record,
        false => without_required(record),
    }
}

/// Nothing must stand, so that the record is sound.
fn without_required(mut record: Record) -> Record {
    record.constraints.retain(|&row| row != Constraint::required(row.left));
    record
}

/// Edits in layers of some width.
struct Layered<'random> {
    names: Vec<u16>,
    width: usize,
    rows: BTreeSet<Constraint>,
    /// The layers from this one on are in no ring.
    rings_end: usize,
    random: &'random mut Random,
}

impl Layered<'_> {
    /// Each edit needs one of the next layer, and each is needed by one of the layer
    /// before.
    fn chain(&mut self) {
        for layer in 1..self.layers() {
            self.join(layer, layer - 1, Constraint::enables);
        }
    }

    /// A ring through successive layers, in either direction.
    fn ring(&mut self) {
        let layers = self.layers();
        let length = match self.random.below(4) {
            0 => 2,
            1 => layers - self.random.below(layers.div_ceil(3)),
            _ => self.random.between(2, layers.max(2)),
        };
        let first = self.random.below(layers.saturating_sub(length) + 1);
        let end = layers.min(first + length);
        let mut ring: Vec<usize> = (first..end).collect();
        if self.random.one_in(2) {
            ring.reverse();
        }
        for place in 0..ring.len() {
            self.join(ring[place], ring[(place + 1) % ring.len()], Constraint::not_after);
        }
        self.rings_end = self.rings_end.max(end);
        // INIT needs all of the ring but its first layer.
        if self.random.one_in(3) {
            self.require_of(first + 1);
        }
    }

    /// Requires what needs no ring, and aborts edits.
    fn decide(&mut self) {
        let first = self.rings_end;
        if first < self.layers() && self.random.one_in(2) {
            let last = self.random.between(first, self.layers() - 1);
            let layer = self.random.pick(&[first, last]);
            self.require_of(layer);
        }
        for _ in 0..self.random.pick(&[0, 0, 0, 0, 0, 0, 1, 3]) {
            let name = self.random.pick(&self.names);
            self.rows.insert(Constraint::aborted(name));
        }
    }

    fn require_of(&mut self, layer: usize) {
        if let Some(name) = self.any_of(layer) {
            self.rows.insert(Constraint::required(name));
        }
    }

    /// Shorter and longer ways, further rings, and rows that say nothing of must and
    /// never.
    fn fill(&mut self) {
        let edits = self.names.len();
        let count = self.rows.len() + self.random.pick(&[0, 0, 2, edits / 2, 2 * edits, 512]);
        let far = self.random.pick(&[1, 2, self.width + 1, edits]);
        let idle = self.random.pick(&[0, 50, 95, 100, 100]);
        for _ in 0..TRY_LIMIT {
            if self.rows.len() >= count.min(CONSTRAINT_LIMIT) {
                break;
            }
            let place = self.random.below(edits);
            let other = (place + self.random.between(0, far)).min(edits - 1);
            let (near, far) = (self.names[place], self.names[other]);
            let row = match self.random.below(8) {
                _ if self.random.percent(idle) => Constraint::noncommuting(near, far),
                0..=2 => Constraint::enables(far, near),
                3 => Constraint::enables(near, far),
                4..=6 => Constraint::not_after(near, far),
                _ => Constraint::not_after(far, near),
            };
            if near != far && row.is_allowed() {
                self.rows.insert(row);
            }
        }
    }

    fn layers(&self) -> usize {
        self.names.len().div_ceil(self.width)
    }

    fn layer(&self, layer: usize) -> Vec<u16> {
        self.names.chunks(self.width).nth(layer).unwrap_or_default().to_vec()
    }

    fn any_of(&mut self, layer: usize) -> Option<u16> {
        let names = self.layer(layer);
        if names.is_empty() {
            return None;
        }
        Some(self.random.pick(&names))
    }

    /// Links each edit of one layer to one of another, and the other way round, and
    /// then some more of them.
    fn join(&mut self, from: usize, to: usize, link: fn(u16, u16) -> Constraint) {
        let (from, to) = (self.layer(from), self.layer(to));
        for &left in &from {
            self.rows.insert(link(left, self.random.pick(&to)));
        }
        for &right in &to {
            self.rows.insert(link(self.random.pick(&from), right));
        }
        for _ in 0..self.random.below(self.width) {
            self.rows.insert(link(self.random.pick(&from), self.random.pick(&to)));
        }
    }
}
