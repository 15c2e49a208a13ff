//! Numbers as products of primes.

use std::collections::BTreeMap;

/// The primes of a number, each with its exponent. The default is that of 1.
#[derive(Clone, PartialEq, Eq, Debug, Default)]
pub struct Factors {
    exponents: BTreeMap<u64, u32>,
}

impl Factors {
    /// Those of a number above 0, by trial division.
    pub fn of(number: u64) -> Factors {
        let mut factors = Factors::default();
        let (mut rest, mut candidate) = (number, 2);
        while candidate * candidate <= rest {
            while rest.is_multiple_of(candidate) {
                factors.add(candidate);
                rest /= candidate;
            }
            candidate += 1;
        }
        // What no smaller number divides is a prime.
        if rest > 1 {
            factors.add(rest);
        }
        factors
    }

    fn add(&mut self, prime: u64) {
        *self.exponents.entry(prime).or_default() += 1;
    }

    /// Takes in another number: then this is the least one that both divide.
    pub fn unite(&mut self, other: &Factors) {
        for (&prime, &exponent) in &other.exponents {
            let greatest = self.exponents.entry(prime).or_default();
            *greatest = exponent.max(*greatest);
        }
    }

    pub fn primes(&self) -> impl Iterator<Item = u64> + '_ {
        self.exponents.keys().copied()
    }

    /// The number itself.
    pub fn product(&self) -> u128 {
        self.exponents.iter().map(|(&prime, &exponent)| u128::from(prime).pow(exponent)).product()
    }
}

#[cfg(test)]
mod tests {
    use super::*;

    #[test]
    fn a_number_is_the_product_of_its_primes() {
        let is_prime = |number: u64| (2..number).all(|divisor| !number.is_multiple_of(divisor));
        for number in 1..500 {
            let factors = Factors::of(number);
            assert_eq!(factors.product(), number.into());
            assert!(factors.primes().all(is_prime));
        }
        assert!(Factors::of(524_280).primes().eq([2, 3, 5, 17, 257]));
        assert!(Factors::of(524_269).primes().eq([524_269]));
    }

    #[test]
    fn united_they_are_the_least_common_multiple() {
        for one in 1..60 {
            for other in 1..60 {
                let mut united = Factors::of(one);
                united.unite(&Factors::of(other));
                let least = (1..).find(|it| it % one == 0 && it % other == 0);
                assert_eq!(least.map(u128::from), Some(united.product()));
            }
        }
    }
}
