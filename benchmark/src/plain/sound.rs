//! Soundness, must, never, settled and the bench schedule.

use super::graph::{Graph, Link, Set, State, EMPTY, SIZE_LIMIT};
use super::joining::Joining;
use super::record::Record;
use check::model::{Ground, Rule, Tables};

/// Marks by index.
pub type Marks = [bool; SIZE_LIMIT];

/// A record that was found sound, with the edits that must stand.
#[derive(Clone)]
pub struct Sound {
    graph: Graph,
    must: Set,
}

impl Sound {
    pub fn new(record: &Record) -> Result<Sound, Ground> {
        Sound::of(Graph::of(record))
    }

    /// The needs of 0 must stand, and with a ring among them nothing is sound.
    pub fn of(graph: Graph) -> Result<Sound, Ground> {
        let mut must = EMPTY;
        let added = graph.take_needs(0, &mut must);
        match graph.has_ring(must, &added) {
            true => Err(Ground::Unsound),
            false => Ok(Sound { graph, must }),
        }
    }

    pub fn graph(&self) -> &Graph {
        &self.graph
    }

    pub fn must(&self, edit: usize) -> bool {
        self.must[edit] != State::Outside
    }

    /// No sound schedule holds an edit whose needs hold a ring.
    pub fn never(&self, edit: usize) -> bool {
        if self.must(edit) {
            return false;
        }
        let mut needs = self.must;
        let added = self.graph.take_needs(edit, &mut needs);
        self.graph.has_ring(needs, &added)
    }

    pub fn nevers(&self) -> Marks {
        let mut marks = [false; SIZE_LIMIT];
        (0..self.graph.size()).for_each(|edit| marks[edit] = self.never(edit));
        marks
    }

    /// Never, or must and serialised.
    pub fn settled(&self, never: &Marks) -> Marks {
        let mut serialised = [true; SIZE_LIMIT];
        for (one, other) in self.graph.unordered_pairs() {
            if !never[one] && !never[other] {
                serialised[one] = false;
                serialised[other] = false;
            }
        }
        let mut marks = [false; SIZE_LIMIT];
        for edit in 0..self.graph.size() {
            marks[edit] = never[edit] || self.must(edit) && serialised[edit];
        }
        marks
    }

    /// The bench schedule, INIT first.
    pub fn schedule(&self, hidden: &Marks) -> Vec<u8> {
        let mut set = self.must;
        for edit in 1..self.graph.size() {
            if set[edit] != State::Outside {
                continue;
            }
            let mut wider = set;
            let added = self.graph.take_needs(edit, &mut wider);
            // What was in the set before is a must or isn't hidden.
            let barred = added.iter().any(|&needed| hidden[usize::from(needed)]);
            if !barred && !self.graph.has_ring(wider, &added) {
                set = wider;
            }
        }
        self.graph.ordered(&set)
    }

    /// The page of each edit with nothing hidden, 0 where it has none.
    pub fn pages(&self) -> [u8; SIZE_LIMIT] {
        let mut pages = [0; SIZE_LIMIT];
        let schedule = self.schedule(&[false; SIZE_LIMIT]);
        for (page, &edit) in schedule.iter().enumerate() {
            pages[usize::from(edit)] = page as u8;
        }
        pages
    }

    pub fn judgement(&self) -> Judgement {
        let never = self.nevers();
        let mut must = [false; SIZE_LIMIT];
        (0..self.graph.size()).for_each(|edit| must[edit] = self.must(edit));
        Judgement { must, never, settled: self.settled(&never), place: self.pages() }
    }
}

/// What can be said of each edit, by index.
#[derive(Clone, Copy)]
pub struct Judgement {
    pub must: Marks,
    pub never: Marks,
    pub settled: Marks,
    /// The page with nothing hidden, 0 where there is none.
    pub place: [u8; SIZE_LIMIT],
}

/// The judgement of a lent record.
pub fn judgement(tables: &Tables) -> Result<Judgement, Ground> {
    Ok(Joining::lent(tables)?.judged()?.1.judgement())
}

/// The bench schedule of a lent record with nothing hidden, INIT first.
pub fn schedule(tables: &Tables) -> Result<Vec<u8>, Ground> {
    Ok(Joining::lent(tables)?.judged()?.1.schedule(&[false; SIZE_LIMIT]))
}

/// Whether a row of any numbers is a sound schedule of a sound record.
pub fn is_sound_schedule(record: &Record, sound: &Sound, row: &[u32]) -> bool {
    let mut places = [None; SIZE_LIMIT];
    for (place, &number) in row.iter().enumerate() {
        let index = if number == 0 { Some(0) } else { record.named(number).ok() };
        let Some(index) = index else { return false };
        if places[index].replace(place).is_some() {
            return false;
        }
    }
    let fits = |link: &Link| match (link.rule, places[link.left()], places[link.right()]) {
        (Rule::NotAfter, Some(left), Some(right)) => left < right,
        (Rule::Enables, None, Some(_)) => false,
        _ => true,
    };
    row.first() == Some(&0) && sound.graph().links().iter().all(fits)
}
