//! Constraints that are suggested for two edits.

use super::{Constraint, Deed, Edit, Ground};

#[derive(Clone, Copy, PartialEq, Eq, Debug)]
pub enum Case {
    /// The second was written after the first by one author.
    After,
    Concurrent,
}

/// What a call suggests: its edits, if it has them, and the number of the case.
/// Of several faults the lowest number is given, whichever edit has it.
pub fn suggest_named(
    first: Result<Edit, Ground>,
    second: Result<Edit, Ground>,
    case: u32,
) -> Result<Vec<Constraint>, Ground> {
    let case = match case {
        0 => Ok(Case::After),
        1 => Ok(Case::Concurrent),
        _ => Err(Ground::Range),
    };
    let grounds = [first.err(), second.err(), case.err()];
    match grounds.into_iter().flatten().min() {
        Some(ground) => Err(ground),
        None => Ok(suggest(first?, second?, case?)),
    }
}

/// Two edits of one name or of different places give nothing.
pub fn suggest(first: Edit, second: Edit, case: Case) -> Vec<Constraint> {
    if first.name == second.name || first.body.place != second.body.place {
        return Vec::new();
    }
    let (left, right) = (first.name, second.name);
    let one_field = is_one_field(first.body.deed, second.body.deed);
    match (case, first.body.deed, second.body.deed) {
        (Case::After, Deed::Insert, Deed::Set { .. } | Deed::Remove) => {
            vec![Constraint::not_after(left, right), Constraint::enables(left, right)]
        }
        (Case::After, Deed::Remove, Deed::Insert) => vec![Constraint::not_after(left, right)],
        (Case::After, ..) if one_field => vec![Constraint::not_after(left, right)],
        (Case::Concurrent, Deed::Insert, Deed::Insert) => {
            vec![Constraint::noncommuting(left, right)]
        }
        (Case::Concurrent, one, other) if one_field || is_crossed(one, other) => {
            vec![Constraint::noncommuting(left, right)]
        }
        _ => Vec::new(),
    }
}

/// Document 02, A1: one of the two removes, the other inserts or sets any field.
fn is_crossed(first: Deed, second: Deed) -> bool {
    matches!(first, Deed::Remove) != matches!(second, Deed::Remove)
}

fn is_one_field(first: Deed, second: Deed) -> bool {
    match (first, second) {
        (Deed::Set { field: one, .. }, Deed::Set { field: other, .. }) => one == other,
        _ => false,
    }
}
