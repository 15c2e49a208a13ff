//! Why an edit must stand, or can never stand: breadth first, by queues in the order of
//! rows, so that an edit is reached by its least row first.

use super::graph::{Graph, SIZE_LIMIT};
use super::joining::Joining;
use super::print;
use super::rings::Rings;
use super::sound::{Marks, Sound};
use check::model::{Ground, Tables};

/// Edits by index.
pub enum Reason {
    Must { chain: Vec<u8> },
    Never { chain: Vec<u8>, ring: Vec<u8> },
}

/// Appends the line that tells why.
pub fn explain(tables: &Tables, edit: u32, out: &mut Vec<u8>) -> Result<(), Ground> {
    let joining = Joining::lent(tables)?;
    let index = joining.record.named(edit)?;
    let (record, sound) = joining.judged()?;
    let reason = reason(&sound, index).ok_or(Ground::NoReason)?;
    print::reason(&record, edit, &reason, out);
    Ok(())
}

/// The least reason for an edit.
fn reason(sound: &Sound, edit: usize) -> Option<Reason> {
    let graph = sound.graph();
    if sound.must(edit) {
        return Some(Reason::Must { chain: must_chain(graph, edit) });
    }
    never_rows(graph, edit).map(|(chain, ring)| Reason::Never { chain, ring })
}

/// Edits that were reached, with the one before each and the links up to each.
struct Reached {
    queue: Vec<u8>,
    marks: Marks,
    before: [u8; SIZE_LIMIT],
    depth: [u8; SIZE_LIMIT],
}

impl Reached {
    /// A start has itself before it.
    fn from(starts: &[usize]) -> Reached {
        let mut reached = Reached {
            queue: Vec::with_capacity(SIZE_LIMIT),
            marks: [false; SIZE_LIMIT],
            before: [0; SIZE_LIMIT],
            depth: [0; SIZE_LIMIT],
        };
        for &start in starts {
            reached.marks[start] = true;
            reached.before[start] = start as u8;
            reached.queue.push(start as u8);
        }
        reached
    }

    fn reach(&mut self, next: u8, from: usize) {
        let index = usize::from(next);
        if !self.marks[index] {
            self.marks[index] = true;
            self.before[index] = from as u8;
            self.depth[index] = self.depth[from] + 1;
            self.queue.push(next);
        }
    }

    /// The edits up to this one.
    fn row_to(&self, end: usize) -> Vec<u8> {
        let mut row = vec![end as u8];
        let mut here = end;
        while usize::from(self.before[here]) != here {
            here = usize::from(self.before[here]);
            row.push(here as u8);
        }
        row.reverse();
        row
    }
}

/// From the edit along enables to 0, which it leads to.
fn must_chain(graph: &Graph, edit: usize) -> Vec<u8> {
    let enabled = graph.enabled();
    let mut reached = Reached::from(&[edit]);
    let mut next = 0;
    while !reached.marks[0] {
        let here = usize::from(reached.queue[next]);
        enabled[here].iter().for_each(|&other| reached.reach(other, here));
        next += 1;
    }
    reached.row_to(0)
}

/// The chain and the ring. The needs are gone through in the order of their chains. Of
/// each its least ring is looked for, as long as it may have few enough links. A ring
/// through an earlier one makes a lower row from there: earlier ones are taken away.
fn never_rows(graph: &Graph, edit: usize) -> Option<(Vec<u8>, Vec<u8>)> {
    let needs = needs(graph, edit);
    let mut rings = Rings::among(&needs.marks, graph);
    let mut best: Option<(Vec<u8>, Vec<u8>)> = None;
    let mut fewest = usize::MAX;
    for &first in &needs.queue {
        let first = usize::from(first);
        let depth = usize::from(needs.depth[first]);
        if depth >= fewest {
            break;
        }
        if !rings.left[first] {
            continue;
        }
        if let Some(ring) = ring(&rings, first, fewest - depth) {
            let chain = needs.row_to(first);
            let is_lower = |best: &(Vec<u8>, Vec<u8>)| {
                chain.iter().chain(&ring).lt(best.0.iter().chain(&best.1))
            };
            if depth + ring.len() < fewest || best.as_ref().is_some_and(is_lower) {
                fewest = depth + ring.len();
                best = Some((chain, ring));
            }
        }
        rings.take(first);
    }
    best
}

/// What 0 or the edit needs, each reached by its least chain.
fn needs(graph: &Graph, edit: usize) -> Reached {
    let mut needs = Reached::from(&[0, edit]);
    let mut next = 0;
    while let Some(&need) = needs.queue.get(next) {
        let need = usize::from(need);
        graph.enablers()[need].iter().for_each(|&enabler| needs.reach(enabler, need));
        next += 1;
    }
    needs
}

/// The least ring that begins with this edit, if it has at most so many members.
fn ring(rings: &Rings, first: usize, most: usize) -> Option<Vec<u8>> {
    let mut reached = Reached::from(&[first]);
    let mut next = 0;
    while let Some(&here) = reached.queue.get(next) {
        let here = usize::from(here);
        if usize::from(reached.depth[here]) >= most {
            return None;
        }
        for &follower in &rings.followers[here] {
            if usize::from(follower) == first {
                return Some(reached.row_to(here));
            }
            if rings.left[usize::from(follower)] {
                reached.reach(follower, here);
            }
        }
        next += 1;
    }
    None
}
