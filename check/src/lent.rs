//! What is lent to the calls of a log: its limits, and the lines that lend rows.

use crate::form::{constraint_text, edit_text};
use crate::model::{
    ConstraintRow, EditRow, Ground, RollRow, Tables, BENCHES, CONSTRAINT_LIMIT, EDIT_LIMIT,
};

/// One row more than a record can take in, so that a table that is too long has
/// its fault among the rows that are kept.
pub const LENT_EDIT_LIMIT: usize = EDIT_LIMIT + 1;
pub const LENT_CONSTRAINT_LIMIT: usize = CONSTRAINT_LIMIT + 1;
/// One name more than any schedule has.
pub const ROW_LIMIT: usize = EDIT_LIMIT + 2;
/// A roll of nine rows has a fault; further rows can't change that.
const ROLL_LIMIT: usize = BENCHES + 1;

/// 1 to 8 are the proposals by bench, 0 is loose.
pub fn record_number(number: u32) -> Result<usize, Ground> {
    let number = number as usize;
    (number <= BENCHES).then_some(number).ok_or(Ground::Range)
}

pub fn push_within<Row>(rows: &mut Vec<Row>, row: Row, limit: usize) -> Result<(), Ground> {
    if rows.len() >= limit {
        return Err(Ground::NoPlace);
    }
    rows.push(row);
    Ok(())
}

pub fn push_roll(roll: &mut Vec<RollRow>, bench: u32, weight: u32) -> Result<(), Ground> {
    let bench = u8::try_from(bench).map_err(|_| Ground::Range)?;
    let weight = u16::try_from(weight).map_err(|_| Ground::Range)?;
    if roll.len() < ROLL_LIMIT {
        roll.push(RollRow { bench, weight });
    }
    Ok(())
}

/// The line that lends a row of edits to this record.
pub fn edit_line(number: u32, row: &EditRow) -> String {
    let EditRow { name, kind, place, field, value } = row;
    format!("lent={number} edit={name} kind={kind} chip={place} field={field} value={value}")
}

/// The line that lends a row of constraints to this record.
pub fn constraint_line(number: u32, row: &ConstraintRow) -> String {
    let ConstraintRow { left, rule, right } = row;
    format!("lent={number} left={left} rule={rule} right={right}")
}

/// The line that lends this row by a line of the text, if one says it.
pub fn edit_text_line(number: u32, row: &EditRow) -> Option<String> {
    edit_text(row).map(|text| format!("lent={number} {text}"))
}

pub fn constraint_text_line(number: u32, row: &ConstraintRow) -> Option<String> {
    constraint_text(row).map(|text| format!("lent={number} {text}"))
}

/// The lines that lend a record, in place of what was lent before.
pub fn lending(number: u32, tables: &Tables) -> String {
    let edits = tables.edits.iter().map(|row| edit_line(number, row));
    let constraints = tables.constraints.iter().map(|row| constraint_line(number, row));
    let lines = std::iter::once(format!("lent={number} rows=none")).chain(edits).chain(constraints);
    lines.map(|line| line + "\n").collect()
}
