//! Totals by their primes: those whose least common multiple comes close to a limit.

use super::sum::TOTAL_LIMIT;
use crate::random::Random;
use std::sync::LazyLock;

/// The numbers closest to 2^64 that may be a least common denominator, by their
/// powers of primes: those that fit and those that do not.
pub const CLOSEST_BELOW: [&[u32]; 3] = [
    &[16, 9, 25, 7, 11, 13, 31, 41, 61, 151, 331, 1321],
    &[3, 11, 37, 167, 223, 1039, 6323, 61_751],
    &[5, 13, 5041, 9629, 65_539, 89_209],
];
pub const CLOSEST_ABOVE: [&[u32]; 3] = [
    &[4, 5, 5581, 8681, 49_477, 384_773],
    &[17, 6229, 10_529, 120_811, 136_949],
    &[2, 3, 19, 41, 97, 7103, 69_341, 82_609],
];

/// All primes that a total may have.
static PRIMES: LazyLock<Vec<u32>> = LazyLock::new(|| {
    let mut is_prime = vec![true; TOTAL_LIMIT as usize + 1];
    let mut primes = Vec::new();
    for number in 2..is_prime.len() {
        if is_prime[number] {
            primes.push(number as u32);
            (number * number..is_prime.len()).step_by(number).for_each(|it| is_prime[it] = false);
        }
    }
    primes
});

pub fn primes_between(first: u32, last: u32) -> &'static [u32] {
    let place = |number| PRIMES.partition_point(|&prime| prime < number);
    &PRIMES[place(first)..place(last + 1)]
}

fn any_prime(random: &mut Random) -> u32 {
    let (first, last) =
        random.pick(&[(2, 100), (100, 2_000), (2, TOTAL_LIMIT), (523_000, TOTAL_LIMIT)]);
    random.pick(primes_between(first, last))
}

/// So many different primes out of these.
pub fn different_primes(count: usize, primes: &[u32], random: &mut Random) -> Vec<u32> {
    let mut chosen = Vec::new();
    while chosen.len() < count {
        let prime = random.pick(primes);
        if !chosen.contains(&prime) {
            chosen.push(prime);
        }
    }
    chosen
}

/// Powers of different primes and one number more, so that their product is the
/// closest to the limit from below that the others leave, or just passes it.
pub fn parts_close_to(limit: u64, random: &mut Random) -> Vec<u32> {
    let (mut primes, mut parts) = (Vec::new(), Vec::new());
    let mut rest = limit;
    while rest > TOTAL_LIMIT.into() {
        let prime = any_prime(random);
        if !primes.contains(&prime) {
            let part = any_power(prime, random);
            primes.push(prime);
            parts.push(part);
            rest /= u64::from(part);
        }
    }
    let last = rest as u32 + random.pick(&[0, 0, 1, 1, 2]);
    parts.push(last.min(TOTAL_LIMIT));
    parts
}

fn any_power(prime: u32, random: &mut Random) -> u32 {
    let mut power = prime;
    while power <= TOTAL_LIMIT / prime && random.one_in(2) {
        power *= prime;
    }
    power
}

/// Totals that are products of the parts, with the same least common denominator.
pub fn totals(mut parts: Vec<u32>, random: &mut Random) -> Vec<u32> {
    random.shuffle(&mut parts);
    for _ in 0..random.below(parts.len()) {
        let part = parts.pop().expect("one is left");
        match parts.iter_mut().find(|total| **total <= TOTAL_LIMIT / part) {
            Some(total) => *total *= part,
            None => parts.push(part),
        }
    }
    parts
}

/// What times the divisor is the number, but for multiples of the prime.
pub fn quotient(number: u128, divisor: u128, prime: u32) -> u32 {
    let below_prime = |number: u128| (number % u128::from(prime)) as u64;
    let (number, divisor) = (below_prime(number), below_prime(divisor));
    let is_it = |it: &u32| u64::from(*it) * divisor % u64::from(prime) == number;
    (0..prime).find(is_it).expect("the prime does not divide the divisor")
}

#[cfg(test)]
mod tests {
    use super::*;

    fn product(parts: &[u32]) -> i128 {
        parts.iter().map(|&part| i128::from(part)).product()
    }

    #[test]
    fn the_closest_numbers_are_as_close_as_they_say() {
        let distances = |lists: [&[u32]; 3]| lists.map(|parts| product(parts) - (1 << 64));
        assert_eq!(distances(CLOSEST_BELOW), [-16, -49, -81]);
        assert_eq!(distances(CLOSEST_ABOVE), [4, 67, 230]);
    }

    /// 2^64 itself is too great a power, and of all others one prime is too great.
    #[test]
    fn none_is_closer() {
        let limit = 1_u128 << 64;
        for number in (limit - 15..limit).chain(limit + 1..limit + 4) {
            let mut rest = number;
            for prime in PRIMES.iter().copied().map(u128::from) {
                while rest.is_multiple_of(prime) {
                    rest /= prime;
                }
            }
            assert_ne!(rest, 1, "{number}");
        }
    }

    #[test]
    fn parts_come_close_to_the_limit() {
        for seed in 0..200 {
            let mut random = Random::new(seed);
            let parts = parts_close_to(u64::MAX, &mut random);
            let last = i128::from(*parts.last().unwrap());
            let before = product(&parts) / last;
            let greatest = i128::from(u64::MAX) / before;
            assert!((greatest..=greatest + 2).contains(&last) || last == TOTAL_LIMIT.into());
            let before = product(&parts);
            assert_eq!(product(&totals(parts, &mut random)), before);
        }
    }

    #[test]
    fn a_quotient_times_the_divisor_is_the_number() {
        for (number, divisor) in [(1, 2), (5, 3), (1 << 64, 144_094_023_493_599_713)] {
            let quotient = quotient(number, divisor, 20_011);
            assert_eq!(u128::from(quotient) * (divisor % 20_011) % 20_011, number % 20_011);
        }
    }
}
