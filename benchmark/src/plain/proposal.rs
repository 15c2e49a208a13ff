//! Making a bench's proposal.

use super::bundle::Bundles;
use super::graph::Graph;
use super::joining::Joining;
use super::record::Record;
use super::sound::Sound;
use check::model::{Constraint, Ground, Tables};

/// A proposal from a record and the bench's old proposal, into an output that has
/// so many rows for edits and for constraints.
pub fn propose(from: &Tables, old: &Tables, room: (u32, u32)) -> Result<Record, Ground> {
    let from = Joining::lent(from)?.record;
    let (old, old_sound) = Joining::of(old, &from)?.judged()?;
    let mut proposal = from.union(&old);
    proposal.take_in(settled_first(&proposal, &old, &old_sound))?;
    proposal.take_in(decisions(&proposal, &Sound::new(&proposal)?))?;
    let sound = Sound::new(&proposal).expect("a schedule that is decided is sound");
    if !keeps((&old, &old_sound), (&proposal, &sound)) {
        return Err(Ground::NotKept);
    }
    let fits = |count: usize, room: u32| count <= room as usize;
    match fits(proposal.edits.len(), room.0) && fits(proposal.constraints.len(), room.1) {
        true => Ok(proposal),
        false => Err(Ground::TooShort),
    }
}

/// What is settled in the old proposal goes ahead of what is not.
fn settled_first(union: &Record, old: &Record, old_sound: &Sound) -> Vec<Constraint> {
    let settled = old_sound.settled(&old_sound.nevers());
    let is_settled = |name| old.index(name).is_some_and(|edit| settled[edit]);
    let ordered = |(one, other)| {
        let (left, right) = (name_at(union, one), name_at(union, other));
        match (is_settled(left), is_settled(right)) {
            (true, false) => Some(Constraint::not_after(left, right)),
            (false, true) => Some(Constraint::not_after(right, left)),
            _ => None,
        }
    };
    Graph::of(union).unordered_pairs().filter_map(ordered).collect()
}

fn name_at(record: &Record, index: usize) -> u16 {
    record.edits[index - 1].name
}

/// Edits in the schedule are required, the others aborted, and unordered pairs
/// in the schedule get its order.
fn decisions(record: &Record, sound: &Sound) -> Vec<Constraint> {
    let pages = sound.pages();
    let ordered = |(one, other): (usize, usize)| match (pages[one], pages[other]) {
        (0, _) | (_, 0) => None,
        (page, other_page) if page < other_page => Some((one, other)),
        _ => Some((other, one)),
    };
    let orders = sound.graph().unordered_pairs().filter_map(ordered);
    let orders = orders
        .map(|(one, other)| Constraint::not_after(name_at(record, one), name_at(record, other)));
    let decided = record.edits.iter().zip(&pages[1..]).map(|(edit, &page)| match page {
        0 => Constraint::aborted(edit.name),
        _ => Constraint::required(edit.name),
    });
    orders.chain(decided).collect()
}

/// Whether each edit with an eligible bundle in the old proposal has the same
/// bundle in the new one.
fn keeps(old: (&Record, &Sound), new: (&Record, &Sound)) -> bool {
    let (old_bundles, new_bundles) = (Bundles::new(old.0, old.1), Bundles::new(new.0, new.1));
    old.0.edits.iter().enumerate().all(|(place, edit)| {
        let bundle = old_bundles.of(place + 1);
        new_bundles.of(new.0.known_index(edit.name)) == bundle || !bundle.is_eligible()
    })
}
