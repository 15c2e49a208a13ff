//! Shares in lowest terms.

use super::factors::Factors;
use std::cmp::Ordering;
use std::fmt;

/// Two numbers without a common divisor, as the library has them too.
#[repr(C)]
#[derive(Clone, Copy, PartialEq, Eq, Debug)]
pub struct Share {
    pub numerator: u64,
    pub denominator: u64,
}

impl Share {
    /// What is said where there is no share.
    pub const NONE: Share = Share { numerator: 0, denominator: 1 };

    /// A part of a total above 0.
    pub fn of(part: u32, total: u32) -> Share {
        let factors = Factors::of(total.into());
        let (numerator, denominator) = lowest(part.into(), total.into(), factors.primes());
        // Neither grows.
        Share { numerator: numerator as u64, denominator: denominator as u64 }
    }

    /// By cross multiplication.
    pub fn compare(&self, other: &Share) -> Ordering {
        let product = |one: u64, other: u64| u128::from(one) * u128::from(other);
        product(self.numerator, other.denominator).cmp(&product(other.numerator, self.denominator))
    }
}

impl fmt::Display for Share {
    fn fmt(&self, out: &mut fmt::Formatter) -> fmt::Result {
        write!(out, "{}/{}", self.numerator, self.denominator)
    }
}

/// Both numbers divided by each prime as long as both can be. If these are all
/// primes of the denominator, no common divisor is left.
pub fn lowest(
    mut numerator: u128,
    mut denominator: u128,
    primes: impl Iterator<Item = u64>,
) -> (u128, u128) {
    for prime in primes.map(u128::from) {
        while numerator.is_multiple_of(prime) && denominator.is_multiple_of(prime) {
            numerator /= prime;
            denominator /= prime;
        }
    }
    (numerator, denominator)
}

#[cfg(test)]
mod tests {
    use super::*;

    #[test]
    fn a_share_is_in_lowest_terms() {
        let shares = [(0, 524_280), (524_280, 524_280), (12, 18), (7, 12), (262_140, 524_280)];
        let written = shares.map(|(part, total)| Share::of(part, total).to_string());
        assert_eq!(written, ["0/1", "1/1", "2/3", "7/12", "1/2"]);
        for (part, total) in (1..50).flat_map(|total| (0..=total).map(move |part| (part, total))) {
            let Share { numerator, denominator } = Share::of(part, total);
            assert_eq!(u64::from(part) * denominator, u64::from(total) * numerator);
            assert!(!(2..50).any(|it| numerator % it == 0 && denominator % it == 0));
        }
    }

    #[test]
    fn shares_are_compared_exactly() {
        let (least, greatest) = (u64::MAX - 2, u64::MAX - 1);
        let one = Share { numerator: least, denominator: greatest };
        let other = Share { numerator: greatest, denominator: u64::MAX };
        assert_eq!(one.compare(&other), Ordering::Less);
        assert_eq!(other.compare(&one), Ordering::Greater);
        assert_eq!(Share::of(1, 2).compare(&Share::of(3, 6)), Ordering::Equal);
    }
}
