//! Call logs at the limits.

use crate::questions::Question;
use crate::shapes::Shape;
use check::model::{text, ConstraintRow, EditRow, Record};
use check::random::{self, Random};
use std::fmt::Write;

/// How many random logs a mix is made of, and about how many lines each has.
const MIX_SEEDS: u64 = 24;
const MIX_CALLS: usize = 300;

/// Adds the record line by line; the decisions, which add refuses, are left out.
pub fn build(record: &Record) -> Vec<u8> {
    let mut log = Vec::new();
    record.edits.iter().for_each(|&edit| text::write_edit(edit, &mut log));
    let rows = record.constraints.iter().filter(|row| !row.is_decision());
    rows.for_each(|&row| text::write_constraint(row, &mut log));
    log
}

/// Lends the record and merges it.
pub fn merged(record: &Record) -> String {
    lent(record) + "do=merge lent=0\n"
}

fn lent(record: &Record) -> String {
    let mut log = String::new();
    for &edit in &record.edits {
        let EditRow { name, kind, place, field, value } = edit.into();
        put(
            &mut log,
            format_args!("lent=0 edit={name} kind={kind} chip={place} field={field} value={value}"),
        );
    }
    for &constraint in &record.constraints {
        let ConstraintRow { left, rule, right } = constraint.into();
        put(&mut log, format_args!("lent=0 left={left} rule={rule} right={right}"));
    }
    log
}

fn put(log: &mut String, line: std::fmt::Arguments) {
    writeln!(log, "{line}").expect("writing into memory doesn't fail");
}

/// Turns and questions for the page on a full bench.
pub fn turns(shape: &Shape, lines: usize) -> Vec<u8> {
    let mut random = Random::new(11);
    let mut log = merged(&shape.record);
    put(&mut log, format_args!("do=turn pages=-40"));
    for _ in 0..lines / 3 {
        let pages = random.between(1, 6);
        put(&mut log, format_args!("do=turn pages=-{pages}\nask=page\ndo=turn pages={pages}"));
    }
    log.into_bytes()
}

/// Edits of a full bench hidden and shown again, turns and questions between.
pub fn hidings(shape: &Shape, lines: usize) -> Vec<u8> {
    let mut random = Random::new(12);
    let mut log = merged(&shape.record);
    for _ in 0..lines / 6 {
        let name = random.pick(&shape.record.edits).name;
        let pages = random.between(1, 6);
        put(&mut log, format_args!("do=hide edit={name}\ndo=turn pages=-{pages}\nask=page"));
        put(&mut log, format_args!("do=turn pages={pages}\ndo=show edit={name}\nask=page"));
    }
    log.into_bytes()
}

/// Questions that print much, on a full bench.
pub fn questions(shape: &Shape, rounds: usize) -> Vec<u8> {
    let questions = "ask=report\nask=schedule\nask=catalogue\nask=text\nask=journal\nask=hidden\n";
    (merged(&shape.record) + &questions.repeat(rounds)).into_bytes()
}

/// Each record lent once, and asked why of each of its edits.
pub fn reasons(questions: &[Question]) -> Vec<u8> {
    let mut log = String::new();
    for question in questions {
        log += "lent=0 rows=none\n";
        log += &lent(&question.record);
        for edit in &question.record.edits {
            put(&mut log, format_args!("do=why edit={} lent=0", edit.name));
        }
    }
    log.into_bytes()
}

/// Random logs one after the other, on one bench.
pub fn mix() -> Vec<u8> {
    (1..=MIX_SEEDS).flat_map(|seed| random::log(seed, MIX_CALLS)).collect()
}

/// The log again and again until it has this size.
pub fn repeated(log: &[u8], size: usize) -> Vec<u8> {
    log.repeat(size.div_ceil(log.len()))
}
