//! The exchanged text: its reader, its writer and the report on it.

use super::{reason, Constraint, Deed, Edit, Ground, Joining, Reason, Record, Sound};
use crate::form::{self, constraint_row, edit_row};
use std::io::Write;

/// What a line of the text says.
#[derive(Clone, Copy, Debug)]
enum Kind {
    Insert,
    Set,
    Remove,
    Constraint,
}

const FORMS: [(Kind, &str); 4] = [
    (Kind::Insert, form::INSERT),
    (Kind::Set, form::SET),
    (Kind::Remove, form::REMOVE),
    (Kind::Constraint, form::CONSTRAINT),
];

/// Why a text is turned away, and at which line, from 1.
#[derive(Clone, Copy, PartialEq, Eq, Debug)]
pub struct Fault {
    pub ground: Ground,
    pub line: usize,
}

/// The record that a text holds.
pub fn read(text: &[u8]) -> Result<Record, Fault> {
    read_sound(text).map(|(record, _)| record)
}

fn read_sound(text: &[u8]) -> Result<(Record, Sound), Fault> {
    let empty = Record::default();
    let mut joining = Joining::new(&empty);
    let mut count = 0;
    for line in form::lines(text) {
        count += 1;
        read_line(line, &mut joining).map_err(|ground| Fault { ground, line: count })?;
    }
    let record = joining.table;
    let sound = Sound::new(&record).map_err(|ground| Fault { ground, line: count })?;
    Ok((record, sound))
}

fn read_line(line: form::Line, joining: &mut Joining) -> Result<(), Ground> {
    let found = form::find(&FORMS, line.bytes).filter(|_| line.ended);
    let (kind, numbers) = found.ok_or(Ground::Form)?;
    let numbers = numbers?;
    match kind {
        Kind::Insert => joining.edit(edit_row(0, numbers)),
        Kind::Set => joining.edit(edit_row(1, numbers)),
        Kind::Remove => joining.edit(edit_row(2, numbers)),
        Kind::Constraint => joining.constraint(constraint_row(numbers)),
    }
}

/// The line of the reason for an edit of a text's record. What is wrong with the edit is
/// at no line of the text.
pub fn why(text: &[u8], edit: u32) -> Result<Vec<u8>, Fault> {
    let record = read(text)?;
    let asked = |ground| Fault { ground, line: 0 };
    let index = record.named(edit).map_err(asked)?;
    let reason = reason(&record, index).ok_or(asked(Ground::NoReason))?;
    let mut output = Vec::new();
    write_reason(edit, &reason, &mut output);
    Ok(output)
}

/// Writes one line at the end of the output.
pub fn put(output: &mut Vec<u8>, line: std::fmt::Arguments) {
    output.write_fmt(line).expect("writing into memory doesn't fail");
    output.push(b'\n');
}

pub fn yes_or_no(answer: bool) -> &'static str {
    if answer {
        "yes"
    } else {
        "no"
    }
}

pub fn write_edit(edit: Edit, output: &mut Vec<u8>) {
    let Edit { name, body } = edit;
    let place = body.place;
    match body.deed {
        Deed::Insert => put(output, format_args!("edit={name} do=insert chip={place}")),
        Deed::Remove => put(output, format_args!("edit={name} do=remove chip={place}")),
        Deed::Set { field, value } => {
            let field = field.word();
            put(output, format_args!("edit={name} do=set chip={place} field={field} value={value}"))
        }
    }
}

pub fn write_constraint(constraint: Constraint, output: &mut Vec<u8>) {
    let Constraint { left, rule, right } = constraint;
    put(output, format_args!("left={left} rule={} right={right}", rule.word()));
}

pub fn write_counts(record: &Record, output: &mut Vec<u8>) {
    let (edits, rules) = (record.edits.len(), record.constraints.len());
    put(output, format_args!("edits={edits} rules={rules}"));
}

pub fn write_text(record: &Record, output: &mut Vec<u8>) {
    for &edit in &record.edits {
        write_edit(edit, output);
    }
    for &constraint in &record.constraints {
        write_constraint(constraint, output);
    }
}

/// The counts, then each edit with must, never, settled and its page with
/// nothing hidden, 0 if it has none.
pub fn write_report(record: &Record, sound: &Sound, output: &mut Vec<u8>) {
    let never = sound.nevers();
    let settled = sound.settled(&never);
    let mut pages = vec![0; record.edits.len() + 1];
    for (page, edit) in sound.schedule_with_nothing_hidden().into_iter().enumerate() {
        pages[edit] = page;
    }
    write_counts(record, output);
    for (place, edit) in record.edits.iter().enumerate() {
        let index = place + 1;
        put(
            output,
            format_args!(
                "edit={} must={} never={} settled={} place={}",
                edit.name,
                yes_or_no(sound.must(index)),
                yes_or_no(never[index]),
                yes_or_no(settled[index]),
                pages[index],
            ),
        );
    }
}

/// The chain and, of an edit that can never stand, the ring.
pub fn write_reason(edit: u32, reason: &Reason, output: &mut Vec<u8>) {
    match reason {
        Reason::Must { chain } => {
            put(output, format_args!("edit={edit} why=must chain={}", listed(chain)));
        }
        Reason::Never { chain, ring } => {
            let (chain, ring) = (listed(chain), listed(ring));
            put(output, format_args!("edit={edit} why=never chain={chain} ring={ring}"));
        }
    }
}

/// Names with commas between.
fn listed(names: &[u16]) -> String {
    names.iter().map(u16::to_string).collect::<Vec<_>>().join(",")
}

/// Puts bytes into a lent output from a given place on, if there is room for
/// them, and gives the place after them. Otherwise nothing is written.
pub fn place_into(output: &mut [u8], place: usize, bytes: &[u8]) -> Result<usize, Ground> {
    let room = output.get_mut(place..).and_then(|rest| rest.get_mut(..bytes.len()));
    room.ok_or(Ground::TooShort)?.copy_from_slice(bytes);
    Ok(place + bytes.len())
}

/// What `shelf` prints for a text, and the fault if it is turned away.
pub fn shelf(text: &[u8]) -> (Vec<u8>, Option<Fault>) {
    let mut output = Vec::new();
    match read_sound(text) {
        Ok((record, sound)) => {
            write_report(&record, &sound, &mut output);
            (output, None)
        }
        Err(fault) => {
            put(&mut output, format_args!("refused={} line={}", fault.ground.number(), fault.line));
            (output, Some(fault))
        }
    }
}
