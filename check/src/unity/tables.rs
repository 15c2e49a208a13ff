//! Random tables of election answers.

use super::near;
use super::sum::{Answer, ROW_LIMIT, TOTAL_LIMIT};
use crate::random::Random;

/// An election that nobody had a weight in.
const EMPTY: Answer = [0; 3];

/// The table of a seed. Most come close to 2^64.
pub fn table(seed: u64) -> Vec<Answer> {
    let mut random = Random::new(seed ^ 0x756e_6974);
    let kind = match random.below(9) {
        0 => small,
        1 => reducible,
        2 => long,
        _ => near::any_kind(&mut random),
    };
    let mut table = kind(&mut random);
    change(&mut table, &mut random);
    table
}

/// How large the greatest groups are.
#[derive(Clone, Copy)]
pub enum Groups {
    Any,
    /// Many of them together are still less than the whole of one.
    Small,
    /// Just half, or as close to it as may be.
    Half,
    /// Almost all or all.
    Large,
}

impl Groups {
    pub fn any(random: &mut Random) -> Groups {
        random.pick(&[Groups::Any, Groups::Small, Groups::Half, Groups::Large])
    }

    fn greatest(self, total: u32, random: &mut Random) -> u32 {
        match self {
            Groups::Any => up_to(total, random),
            Groups::Small => total.min(1 + up_to(total / 64, random)),
            Groups::Half => total.min(total / 2 + up_to(1, random)),
            Groups::Large => total - up_to(total / 16, random).min(up_to(total, random)),
        }
    }
}

/// A number up to this one.
pub fn up_to(greatest: u32, random: &mut Random) -> u32 {
    random.below(greatest as usize + 1) as u32
}

/// An election with this total.
pub fn answer(total: u32, groups: Groups, random: &mut Random) -> Answer {
    let greatest = groups.greatest(total, random);
    let rest = total - greatest;
    let silent = match random.below(3) {
        0 => 0,
        1 => rest,
        _ => up_to(rest, random),
    };
    [greatest, silent, total]
}

/// All or nothing of any total. These come to 1/1 and 0/1, whatever else there is.
pub fn whole(is_all: bool, random: &mut Random) -> Answer {
    let total = 1 + up_to(TOTAL_LIMIT - 1, random);
    match is_all {
        true => [total, 0, total],
        false => [0, up_to(total, random), total],
    }
}

/// Few benches with small weights, or none.
fn small(random: &mut Random) -> Vec<Answer> {
    let groups = Groups::any(random);
    let most = random.pick(&[0, 1, 2, 4, 12]);
    let count = random.pick(&[0, 1, 2, 5, 12, 30]);
    (0..count).map(|_| answer(up_to(most, random), groups, random)).collect()
}

/// Simple shares of large totals, which have no common denominator in 64 bits
/// unless they are reduced first.
fn reducible(random: &mut Random) -> Vec<Answer> {
    let common = |_| {
        let total = 1 + up_to(11, random);
        let times = 1 + up_to(TOTAL_LIMIT / total - 1, random);
        answer(total, Groups::Any, random).map(|number| number * times)
    };
    (0..12).map(common).collect()
}

/// As many rows as a table may have, or a few more or less.
fn long(random: &mut Random) -> Vec<Answer> {
    let groups = Groups::any(random);
    let most = random.pick(&[1, 2, 10]);
    let count = random.pick(&[199, 200, 200, 201, 202, 300]);
    (0..count).map(|_| answer(up_to(most, random), groups, random)).collect()
}

/// Puts in and appends what changes little, or a fault.
fn change(table: &mut Vec<Answer>, random: &mut Random) {
    if random.one_in(2) {
        random.shuffle(table);
    }
    while random.one_in(5) {
        insert(table, EMPTY, random);
    }
    if random.one_in(20) {
        insert(table, answer(TOTAL_LIMIT, Groups::any(random), random), random);
    }
    if random.one_in(12) {
        lengthen(table, random);
    }
    while random.one_in(6) {
        table.push(EMPTY);
    }
    if random.one_in(5) {
        spoil(table, random);
    }
}

fn insert(table: &mut Vec<Answer>, answer: Answer, random: &mut Random) {
    table.insert(random.below(table.len() + 1), answer);
}

/// Fills the table up to about its limit with rows that add no denominator.
fn lengthen(table: &mut Vec<Answer>, random: &mut Random) {
    let kind = random.below(3);
    let length = random.between(ROW_LIMIT - 1, ROW_LIMIT + 2);
    while table.len() < length {
        table.push(match kind {
            0 => EMPTY,
            1 => whole(false, random),
            _ => whole(random.one_in(60), random),
        });
    }
}

/// Puts in a row out of range: anywhere, at the end or past the limit.
fn spoil(table: &mut Vec<Answer>, random: &mut Random) {
    let place = match random.below(4) {
        0 => random.below(table.len() + 1),
        1 => random.below(table.len().min(4) + 1),
        _ => table.len().min(ROW_LIMIT),
    };
    table.insert(place, out_of_range(random));
}

fn out_of_range(random: &mut Random) -> Answer {
    let any = up_to(TOTAL_LIMIT, random);
    let total = random.pick(&[0, 1, 6, TOTAL_LIMIT, any]);
    let part = up_to(total, random);
    match random.below(7) {
        0 | 1 => [part, total - part + 1, total],
        2 => [part, 0, TOTAL_LIMIT + 1],
        3 => [part, 0, u32::MAX - part],
        // In 32 bits these sums are part and 0.
        4 => [u32::MAX, part + 1, total],
        5 => [1 << 31, 1 << 31, total],
        _ => random.pick(&[[1, 0, 0], [0, 1, 0], [u32::MAX; 3], [0, u32::MAX, u32::MAX]]),
    }
}
