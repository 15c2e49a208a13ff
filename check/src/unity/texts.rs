//! Random tables as texts, many of them damaged.

use super::sum::{Answer, ROW_LIMIT};
use super::tables::table;
use super::text::{line, written};
use crate::random::damage::damaged;
use crate::random::Random;

/// The text of a seed: its table, in half of the seeds with a damage.
pub fn text(seed: u64) -> Vec<u8> {
    let mut random = Random::new(seed ^ 0x6c69_6e65);
    let table = table(seed);
    match random.below(8) {
        0..=3 => written(&table),
        4..=6 => with_damaged_line(&table, &mut random),
        _ => with_another_end(written(&table), &mut random),
    }
}

/// One line is almost in form, or one more is: anywhere, at the end or past the
/// limit.
fn with_damaged_line(table: &[Answer], random: &mut Random) -> Vec<u8> {
    let place = match random.below(3) {
        0 => random.below(table.len() + 1),
        1 => random.below(table.len().min(4) + 1),
        _ => table.len().min(ROW_LIMIT),
    };
    let (before, after) = table.split_at(place);
    let answer = after.first().copied().unwrap_or([1, 0, 2]);
    let after = after.get(1..).unwrap_or_default();
    [written(before), damaged(&line(answer), random), written(after)].concat()
}

fn with_another_end(mut text: Vec<u8>, random: &mut Random) -> Vec<u8> {
    match random.below(6) {
        0 | 1 => drop(text.pop()),
        2 => text.extend_from_slice(b"greatest=0 silent=0 total=1"),
        3 => text.push(b'\n'),
        4 => text = text.repeat(1 + 20_000 / text.len().max(1)),
        _ => text.extend(std::iter::repeat_n(b'7', random.between(95, 70_000))),
    }
    text
}
