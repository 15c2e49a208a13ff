//! Printing into a buffer.

use super::reason::Reason;
use super::record::Record;
use super::sound::Sound;
use check::model::{Constraint, Deed, Edit, Entry, Ground};

/// The most digits that a number has.
const DIGIT_LIMIT: usize = 20;

/// Text and numbers at the end of a buffer.
pub trait Print {
    fn text(&mut self, text: &str) -> &mut Self;
    fn number(&mut self, number: impl TryInto<u64>) -> &mut Self;

    fn yes_or_no(&mut self, answer: bool) -> &mut Self {
        self.text(if answer { "yes" } else { "no" })
    }
}

impl Print for Vec<u8> {
    fn text(&mut self, text: &str) -> &mut Self {
        self.extend_from_slice(text.as_bytes());
        self
    }

    fn number(&mut self, number: impl TryInto<u64>) -> &mut Self {
        let Ok(mut rest) = number.try_into() else { unreachable!("counts fit 64 bits") };
        let mut digits = [0; DIGIT_LIMIT];
        let mut start = DIGIT_LIMIT;
        loop {
            start -= 1;
            digits[start] = b'0' + (rest % 10) as u8;
            rest /= 10;
            if rest == 0 {
                break;
            }
        }
        self.extend_from_slice(&digits[start..]);
        self
    }
}

pub fn edit(edit: &Edit, out: &mut Vec<u8>) {
    out.text("edit=").number(edit.name);
    match edit.body.deed {
        Deed::Insert => out.text(" do=insert chip=").number(edit.body.place),
        Deed::Remove => out.text(" do=remove chip=").number(edit.body.place),
        Deed::Set { field, value } => {
            out.text(" do=set chip=").number(edit.body.place).text(" field=").text(field.word());
            out.text(" value=").number(value)
        }
    };
    out.text("\n");
}

pub fn constraint(constraint: &Constraint, out: &mut Vec<u8>) {
    out.text("left=").number(constraint.left).text(" rule=").text(constraint.rule.word());
    out.text(" right=").number(constraint.right).text("\n");
}

pub fn counts(edits: usize, constraints: usize, out: &mut Vec<u8>) {
    out.text("edits=").number(edits).text(" rules=").number(constraints).text("\n");
}

/// The counts and the exchanged text.
pub fn rows(edits: &[Edit], constraints: &[Constraint], out: &mut Vec<u8>) {
    counts(edits.len(), constraints.len(), out);
    edits.iter().for_each(|row| edit(row, out));
    constraints.iter().for_each(|row| constraint(row, out));
}

/// The counts, then each edit with must, never, settled and its page.
pub fn report(record: &Record, sound: &Sound, out: &mut Vec<u8>) {
    let judgement = sound.judgement();
    counts(record.edits.len(), record.constraints.len(), out);
    for (place, edit) in record.edits.iter().enumerate() {
        let index = place + 1;
        out.text("edit=").number(edit.name);
        out.text(" must=").yes_or_no(judgement.must[index]);
        out.text(" never=").yes_or_no(judgement.never[index]);
        out.text(" settled=").yes_or_no(judgement.settled[index]);
        out.text(" place=").number(judgement.place[index]).text("\n");
    }
}

/// The chain and, of an edit that can never stand, the ring.
pub fn reason(record: &Record, edit: u32, reason: &Reason, out: &mut Vec<u8>) {
    out.text("edit=").number(edit);
    match reason {
        Reason::Must { chain } => names(" why=must chain=", record, chain, out),
        Reason::Never { chain, ring } => {
            names(" why=never chain=", record, chain, out);
            names(" ring=", record, ring, out);
        }
    }
    out.text("\n");
}

/// The names of edits with commas between.
fn names(begin: &str, record: &Record, row: &[u8], out: &mut Vec<u8>) {
    let mut before = begin;
    for &index in row {
        let name = if index == 0 { 0 } else { record.edits[usize::from(index) - 1].name };
        out.text(before).number(name);
        before = ",";
    }
}

/// The filled cells of an entry, each line with the same beginning.
pub fn cells(begin: &str, number: usize, entry: &Entry, out: &mut Vec<u8>) {
    for (field, value) in entry.filled() {
        out.text(begin).number(number).text(" field=").text(field.word());
        out.text(" value=").number(value).text("\n");
    }
}

pub fn refusal(ground: Ground, line: u64, out: &mut Vec<u8>) {
    out.text("refused=").number(ground.number()).text(" line=").number(line).text("\n");
}
