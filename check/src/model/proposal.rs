//! Making a bench's proposal.

use super::{is_eligible, Bundles, Constraint, Ground, Record, Rule, Sound, Tables};

/// How many rows the lent output has.
#[derive(Clone, Copy, Debug)]
pub struct Room {
    pub edits: usize,
    pub constraints: usize,
}

/// A proposal from a record and the bench's old proposal: all edits decided, and
/// the noncommuting pairs of those that stand put in order.
pub fn propose(from: &Tables, old: &Tables, room: Room) -> Result<Record, Ground> {
    let from = Record::lent(from)?;
    let old = Record::checked(old, &from)?;
    // What is settled in the old proposal can only be said if that is sound.
    let old_sound = Sound::new(&old)?;
    let mut proposal = from.union(&old);
    let settled_first = settled_first(&proposal, &old, &old_sound);
    proposal.take_in(settled_first)?;
    let decisions = decisions(&proposal, &Sound::new(&proposal)?);
    proposal.take_in(decisions)?;
    if !keeps(&old, &proposal) {
        return Err(Ground::NotKept);
    }
    if proposal.edits.len() > room.edits || proposal.constraints.len() > room.constraints {
        return Err(Ground::TooShort);
    }
    Ok(proposal)
}

/// What is settled in the old proposal goes ahead of what is not.
fn settled_first(union: &Record, old: &Record, old_sound: &Sound) -> Vec<Constraint> {
    let settled = old_sound.settled(&old_sound.nevers());
    let is_settled = |name| old.index(name).is_some_and(|edit| settled[edit]);
    let ordered = |row: &Constraint| match (is_settled(row.left), is_settled(row.right)) {
        (true, false) => Some(Constraint::not_after(row.left, row.right)),
        (false, true) => Some(Constraint::not_after(row.right, row.left)),
        _ => None,
    };
    unordered_pairs(union).filter_map(ordered).collect()
}

/// The noncommuting pairs without a recorded order.
fn unordered_pairs(record: &Record) -> impl Iterator<Item = &Constraint> {
    let rows = record.constraints.iter();
    rows.filter(|row| row.rule == Rule::Noncommuting && !record.has_order(row.left, row.right))
}

/// Edits in the schedule are required, the others aborted, and unordered pairs
/// in the schedule get its order.
fn decisions(record: &Record, sound: &Sound) -> Vec<Constraint> {
    let mut page: Vec<Option<usize>> = vec![None; record.edits.len() + 1];
    for (place, edit) in sound.schedule_with_nothing_hidden().into_iter().enumerate() {
        page[edit] = Some(place);
    }
    let page = |name| page[record.index(name).expect("the name is one of the record")];
    let decided = record.edits.iter().map(|edit| match page(edit.name) {
        Some(_) => Constraint::required(edit.name),
        None => Constraint::aborted(edit.name),
    });
    let ordered = |row: &Constraint| match (page(row.left)?, page(row.right)?) {
        (left, right) if left < right => Some(Constraint::not_after(row.left, row.right)),
        _ => Some(Constraint::not_after(row.right, row.left)),
    };
    decided.chain(unordered_pairs(record).filter_map(ordered)).collect()
}

/// Whether each edit with an eligible bundle in the old proposal has the same
/// bundle in the new one. Then that is eligible still, being the same. Both
/// proposals are sound.
pub fn keeps(old: &Record, new: &Record) -> bool {
    let (old_bundles, new_bundles) = (Bundles::new(old), Bundles::new(new));
    old.edits.iter().enumerate().all(|(place, edit)| {
        let old_bundle = old_bundles.of(place + 1);
        let kept = || new.index(edit.name).is_some_and(|edit| new_bundles.of(edit) == old_bundle);
        kept() || !is_eligible(&old_bundle)
    })
}
