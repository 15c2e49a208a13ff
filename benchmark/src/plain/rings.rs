//! The edits of a set that may still be in a ring of notafter within it.

use super::graph::{Graph, Link, Lists, SIZE_LIMIT};
use super::sound::Marks;
use check::model::Rule;

pub struct Rings {
    pub left: Marks,
    pub followers: Lists,
    predecessors: Lists,
    /// How many of either are left to each edit.
    follower_counts: [u16; SIZE_LIMIT],
    predecessor_counts: [u16; SIZE_LIMIT],
}

impl Rings {
    pub fn among(set: &Marks, graph: &Graph) -> Rings {
        let is_inside =
            |link: &&Link| link.rule == Rule::NotAfter && set[link.left()] && set[link.right()];
        let inside = graph.links().iter().filter(is_inside);
        let followers = Lists::new(inside.clone().map(|link| (link.left(), link.right())));
        let predecessors = Lists::new(inside.map(|link| (link.right(), link.left())));
        let count = |lists: &Lists| std::array::from_fn(|edit| lists[edit].len() as u16);
        let follower_counts = count(&followers);
        let predecessor_counts = count(&predecessors);
        let left = *set;
        let mut rings =
            Rings { left, followers, predecessors, follower_counts, predecessor_counts };
        (0..graph.size()).filter(|&edit| set[edit]).for_each(|edit| rings.take_if_loose(edit));
        rings
    }

    /// Takes an edit away if nothing precedes or nothing follows it.
    fn take_if_loose(&mut self, edit: usize) {
        let is_loose = self.follower_counts[edit] == 0 || self.predecessor_counts[edit] == 0;
        if self.left[edit] && is_loose {
            self.take(edit);
        }
    }

    /// Takes an edit away, and those that are in no ring without it as far as they are
    /// found by their neighbours.
    pub fn take(&mut self, edit: usize) {
        let mut free = vec![edit as u8];
        while let Some(edit) = free.pop() {
            let edit = usize::from(edit);
            if !std::mem::replace(&mut self.left[edit], false) {
                continue;
            }
            for &other in &self.followers[edit] {
                let count = &mut self.predecessor_counts[usize::from(other)];
                *count -= 1;
                if *count == 0 {
                    free.push(other);
                }
            }
            for &other in &self.predecessors[edit] {
                let count = &mut self.follower_counts[usize::from(other)];
                *count -= 1;
                if *count == 0 {
                    free.push(other);
                }
            }
        }
    }
}
