//! The exchanged text and its report.

use super::joining::Joining;
use super::order::{self, Change, Order};
use super::print;
use check::model::Ground;

/// Why a text is turned away, and at which line, from 1.
#[derive(Clone, Copy, PartialEq, Eq, Debug)]
pub struct Fault {
    pub ground: Ground,
    pub line: usize,
}

/// Appends the report on a text.
pub fn report(text: &[u8], out: &mut Vec<u8>) -> Result<(), Fault> {
    let mut joining = Joining::alone();
    let mut line = 0;
    for bytes in text.split_inclusive(|&byte| byte == b'\n') {
        line += 1;
        read_line(bytes, &mut joining).map_err(|ground| Fault { ground, line })?;
    }
    let (record, sound) = joining.judged().map_err(|ground| Fault { ground, line })?;
    print::report(&record, &sound, out);
    Ok(())
}

fn read_line(line: &[u8], joining: &mut Joining) -> Result<(), Ground> {
    match order::read(line) {
        Ok(Order::Change(Change::Edit(row))) => joining.edit(row.edit()?),
        Ok(Order::Change(Change::Constraint(row))) => joining.constraint(row.constraint()?),
        // Any other line of a log is not one of a text.
        Ok(_) => Err(Ground::Form),
        Err(ground) => Err(ground),
    }
}

/// Appends what `shelf` prints.
pub fn shelf(text: &[u8], out: &mut Vec<u8>) {
    if let Err(fault) = report(text, out) {
        print::refusal(fault.ground, fault.line as u64, out);
    }
}
