//! Random tables that come close to 2^64: in their denominator, in the numerator
//! of their sum or in their mean.

use super::parts::{
    different_primes, parts_close_to, primes_between, quotient, totals, CLOSEST_ABOVE,
    CLOSEST_BELOW,
};
use super::share::Share;
use super::sum::{Answer, ROW_LIMIT, TOTAL_LIMIT};
use super::tables::{answer, up_to, whole, Groups};
use crate::random::Random;

pub type Kind = fn(&mut Random) -> Vec<Answer>;

pub fn any_kind(random: &mut Random) -> Kind {
    const KINDS: [Kind; 9] = [
        large_primes,
        close_denominator,
        cancelling,
        wide_numerator,
        exact_numerator,
        zero_shares,
        close_mean,
        closest_mean,
        repeated,
    ];
    random.pick(&KINDS)
}

/// An election whose share is in lowest terms already, as a rule.
fn reduced_answer(total: u32, groups: Groups, random: &mut Random) -> Answer {
    let is_reduced = |it: &Answer| Share::of(it[0], total).denominator == total.into();
    let mut tries = (0..10).map(|_| answer(total, groups, random));
    tries.find(is_reduced).unwrap_or([1, 0, total])
}

fn reduced_answers(totals: Vec<u32>, groups: Groups, random: &mut Random) -> Vec<Answer> {
    totals.into_iter().map(|total| reduced_answer(total, groups, random)).collect()
}

/// Further rows up to this number: of nothing, or such a share of them of all.
fn fill_up(table: &mut Vec<Answer>, count: usize, percent: usize, random: &mut Random) {
    while table.len() < count {
        let is_all = random.percent(percent);
        table.push(whole(is_all, random));
    }
}

/// Three of the largest primes fit together, four do not.
fn large_primes(random: &mut Random) -> Vec<Answer> {
    let count = random.between(2, 5);
    let totals = different_primes(count, primes_between(523_000, TOTAL_LIMIT), random);
    let mut table = reduced_answers(totals, Groups::any(random), random);
    (0..random.below(4)).for_each(|_| table.push(answer(up_to(130, random), Groups::Any, random)));
    table
}

/// The least common denominator is close to 2^64, or as close as it can be.
fn close_denominator(random: &mut Random) -> Vec<Answer> {
    let parts = match random.below(4) {
        0 => random.pick(&CLOSEST_BELOW).to_vec(),
        1 => random.pick(&CLOSEST_ABOVE).to_vec(),
        _ => parts_close_to(u64::MAX, random),
    };
    reduced_answers(totals(parts, random), Groups::any(random), random)
}

/// Two totals share a part that their sum is without. So the mean fits, however
/// close to 2^64 the denominator of the shares is.
fn cancelling(random: &mut Random) -> Vec<Answer> {
    let mut parts = match random.one_in(2) {
        true => random.pick(&CLOSEST_BELOW).to_vec(),
        false => parts_close_to(u64::MAX, random),
    };
    parts.sort_unstable();
    let (one, other) = (parts[0], parts[1]);
    let fitting = parts.iter().skip(2).filter(|&&part| part <= TOTAL_LIMIT / other).count();
    if fitting == 0 {
        return reduced_answers(parts, Groups::Small, random);
    }
    let shared = parts.remove(2 + random.below(fitting));
    let group = (1..shared).find(|group| (other + group * one) % shared == 0);
    let mut table = vec![[1, 0, shared * one], [group.unwrap_or(1), 0, shared * other]];
    table.extend(reduced_answers(parts.split_off(2), Groups::Small, random));
    table
}

/// Shares of almost 1, with a denominator that stays below.
fn wide_numerator(random: &mut Random) -> Vec<Answer> {
    let limit = u64::MAX >> random.below(7);
    let mut totals = totals(parts_close_to(limit, random), random);
    let again = random.pick(&[0, 1, 3, 10, 60]);
    (0..again).for_each(|_| totals.push(random.pick(&totals)));
    reduced_answers(totals, Groups::Large, random)
}

/// The numerator of the sum is the last that fits, or one of the two after it.
fn exact_numerator(random: &mut Random) -> Vec<Answer> {
    let numerator = u128::from(u64::MAX) + random.below(3) as u128;
    // Four of them have a product between 2^57 and 2^62.
    let totals = different_primes(4, primes_between(20_000, 46_340), random);
    let denominator: u128 = totals.iter().map(|&total| u128::from(total)).product();
    let mut rest = numerator;
    let mut table = Vec::new();
    for total in totals {
        let over_total = denominator / u128::from(total);
        let group = quotient(numerator, over_total, total);
        rest -= u128::from(group) * over_total;
        table.push([group, up_to(total - group, random), total]);
    }
    (0..rest / denominator).for_each(|_| table.push(whole(true, random)));
    // These divide 2^64 - 1: with so many rows the mean fits.
    let divisor = random.pick(&[1, 3, 5, 15, 17]);
    let count = table.len().next_multiple_of(divisor);
    fill_up(&mut table, count, 0, random);
    table
}

/// Three large primes and as many rows of nothing as the mean's denominator bears.
fn zero_shares(random: &mut Random) -> Vec<Answer> {
    let primes = primes_between(523_000, TOTAL_LIMIT);
    let mut table =
        reduced_answers(different_primes(3, primes, random), Groups::any(random), random);
    fill_up(&mut table, random.between(123, 133), random.pick(&[0, 0, 50]), random);
    table
}

/// The mean's denominator is close to 2^64.
fn close_mean(random: &mut Random) -> Vec<Answer> {
    let count = random.pick(&[5, 7, 11, 13, 31, 64, 100, 127, 131, 199, 200]);
    let parts = parts_close_to(u64::MAX / count as u64, random);
    let mut table = reduced_answers(totals(parts, random), Groups::any(random), random);
    fill_up(&mut table, count, random.pick(&[0, 10, 50]), random);
    table
}

/// The mean's denominator is as close to 2^64 as it can be: some parts give the
/// number of rows and the others the denominator of the shares.
fn closest_mean(random: &mut Random) -> Vec<Answer> {
    let closest = random.pick(&[CLOSEST_BELOW, CLOSEST_ABOVE]);
    let mut parts = random.pick(&closest).to_vec();
    random.shuffle(&mut parts);
    let mut count = 1;
    parts.retain(|&part| {
        let more = count * part as usize;
        let is_taken = more <= ROW_LIMIT;
        count = if is_taken { more } else { count };
        !is_taken
    });
    let mut table = reduced_answers(totals(parts, random), Groups::Small, random);
    fill_up(&mut table, count, random.pick(&[0, 10, 50]), random);
    table
}

/// A mean that stays the same the more often its rows are repeated, while the
/// denominator times the number of rows grows past 2^64.
fn repeated(random: &mut Random) -> Vec<Answer> {
    let limit = u64::MAX >> random.between(2, 6);
    let totals = totals(parts_close_to(limit, random), random);
    let rows = reduced_answers(totals, Groups::Small, random);
    rows.repeat(random.between(1, ROW_LIMIT / rows.len()))
}
