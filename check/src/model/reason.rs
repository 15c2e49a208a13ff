//! Why an edit must stand, or can never stand: document 02, A3.

use super::graph::{links, Graph, Lists};
use super::{Record, Rule};
use std::collections::HashSet;

#[cfg(test)]
mod tests;

#[derive(Clone, PartialEq, Eq, Debug)]
pub enum Reason {
    /// A chain of enables from the edit, each name enabling the next, to 0.
    Must { chain: Vec<u16> },
    /// A chain from the edit or from 0, each next name enabling the one before, and
    /// the ring of notafter that it leads to.
    Never { chain: Vec<u16>, ring: Vec<u16> },
}

/// The least reason for an edit of a sound record, if it has one. Edits are spoken of
/// by their index, and indexes are in the order of names.
pub fn reason(record: &Record, edit: usize) -> Option<Reason> {
    let name = |index: usize| if index == 0 { 0 } else { record.edits[index - 1].name };
    let names = |row: &[usize]| row.iter().map(|&index| name(index)).collect();
    if let Some(chain) = must_row(record, edit) {
        return Some(Reason::Must { chain: names(&chain) });
    }
    let row = never_row(&Graph::new(record), edit)?;
    let meet = row.windows(2).position(|two| two[0] == two[1]);
    let (chain, ring) = row.split_at(meet.expect("the chain's last edit is the ring's first") + 1);
    Some(Reason::Never { chain: names(chain), ring: names(ring) })
}

fn must_row(record: &Record, edit: usize) -> Option<Vec<usize>> {
    let enables = links(record).into_iter().filter(|link| link.1 == Rule::Enables);
    let enables: Vec<(usize, usize)> = enables.map(|(left, _, right)| (left, right)).collect();
    let enabled = Lists::new(record.edits.len() + 1, enables.into_iter());
    least_row(&[edit], |&edit| edit, |&edit| enabled[edit].to_vec(), |&edit| edit == 0)
}

/// The chain and then the ring, as they are printed.
fn never_row(graph: &Graph, edit: usize) -> Option<Vec<usize>> {
    let mut needs = vec![false; graph.size];
    graph.enablers.mark_from(0, &mut needs);
    graph.enablers.mark_from(edit, &mut needs);
    let followers =
        |edit: usize| graph.followers[edit].iter().copied().filter(|&follower| needs[follower]);
    let next = |place: &Place| match *place {
        Place::Chain(edit) => {
            let enablers = graph.enablers[edit].iter().copied().map(Place::Chain);
            enablers.chain([Place::Ring { first: edit, edit }]).collect()
        }
        Place::Ring { first, edit } => {
            followers(edit).map(|edit| Place::Ring { first, edit }).collect()
        }
    };
    let is_end = |place: &Place| match *place {
        Place::Chain(_) => false,
        Place::Ring { first, edit } => followers(edit).any(|follower| follower == first),
    };
    let starts = [Place::Chain(0), Place::Chain(edit)];
    least_row(&starts, |place| place.edit(), next, is_end)
}

/// Where a row of names has come to.
#[derive(Clone, Copy, PartialEq, Eq, Hash)]
enum Place {
    Chain(usize),
    Ring { first: usize, edit: usize },
}

impl Place {
    fn edit(self) -> usize {
        match self {
            Place::Chain(edit) | Place::Ring { edit, .. } => edit,
        }
    }
}

/// The shortest row of edits to an end, and of these the lowest. Rows are made longer
/// in the order in which they are reached: shorter ones first, and of one length the
/// lower ones. So of all rows to a place the first is the least, and the only one that
/// is gone on with.
fn least_row<At: Copy + Eq + std::hash::Hash>(
    starts: &[At],
    edit: impl Fn(&At) -> usize,
    next: impl Fn(&At) -> Vec<At>,
    is_end: impl Fn(&At) -> bool,
) -> Option<Vec<usize>> {
    let mut seen = HashSet::new();
    // Each place with that before it, a start with itself.
    let mut reached: Vec<(At, usize)> = Vec::new();
    for &start in starts {
        seen.insert(start);
        reached.push((start, reached.len()));
    }
    let mut here = 0;
    while let Some(&(place, _)) = reached.get(here) {
        if is_end(&place) {
            return Some(row_to(&reached, here, edit));
        }
        let mut places = next(&place);
        places.sort_by_key(&edit);
        for place in places {
            if seen.insert(place) {
                reached.push((place, here));
            }
        }
        here += 1;
    }
    None
}

/// The edits of the row that reached a place.
fn row_to<At>(reached: &[(At, usize)], end: usize, edit: impl Fn(&At) -> usize) -> Vec<usize> {
    let before = |&here: &usize| Some(reached[here].1).filter(|&before| before != here);
    let mut row: Vec<usize> =
        std::iter::successors(Some(end), before).map(|here| edit(&reached[here].0)).collect();
    row.reverse();
    row
}
