//! The request once more, by Euclid's algorithm, with a fault if one is planted.

use super::function::Reply;
use super::share::Share;
use super::sum::{Answer, Unity};

#[derive(Clone, Copy, PartialEq, Eq, Debug)]
pub enum Planted {
    Nothing,
    // What doesn't fit, and where.
    MeanTestedUnreduced,
    MeanNotTested,
    MeanTestedAtEachRow,
    MeanTestedAtRow200,
    MeanNotTestedAtTotal0,
    MeanAtQuotient,
    MeanNamesLastShare,
    DenominatorOfUnreduced,
    DenominatorAsProduct,
    DenominatorNotTested,
    DenominatorAtQuotient,
    NumeratorTestedReduced,
    NumeratorNotTested,
    NumeratorTestedAtTheEnd,
    FloatingPoint,
    OneLessFits,
    Number16,
    // Other faults of rows.
    RangeBeforeEarlier17,
    WideBeforeRange,
    PlaceBeforeRange,
    PlaceForOneMore,
    PlacesWithoutTotal0,
    SumIn32Bits,
    SilentNotLookedAt,
    TotalLimitRefused,
    TotalLimitPassed,
    Total0NotLookedAt,
    // What is said.
    Total0InMean,
    HalfIsWon,
    MeanReducedByDenominator,
    LeastFrom0,
    LeastOfUnreduced,
    SharesComparedIn32Bits,
    RowFrom0,
    RowWhenAccepted,
    SharesWhenRefused,
    CountsWhenRefused,
}

impl Planted {
    pub const FAULTS: [Planted; 37] = [
        Planted::MeanTestedUnreduced,
        Planted::MeanNotTested,
        Planted::MeanTestedAtEachRow,
        Planted::MeanTestedAtRow200,
        Planted::MeanNotTestedAtTotal0,
        Planted::MeanAtQuotient,
        Planted::MeanNamesLastShare,
        Planted::DenominatorOfUnreduced,
        Planted::DenominatorAsProduct,
        Planted::DenominatorNotTested,
        Planted::DenominatorAtQuotient,
        Planted::NumeratorTestedReduced,
        Planted::NumeratorNotTested,
        Planted::NumeratorTestedAtTheEnd,
        Planted::FloatingPoint,
        Planted::OneLessFits,
        Planted::Number16,
        Planted::RangeBeforeEarlier17,
        Planted::WideBeforeRange,
        Planted::PlaceBeforeRange,
        Planted::PlaceForOneMore,
        Planted::PlacesWithoutTotal0,
        Planted::SumIn32Bits,
        Planted::SilentNotLookedAt,
        Planted::TotalLimitRefused,
        Planted::TotalLimitPassed,
        Planted::Total0NotLookedAt,
        Planted::Total0InMean,
        Planted::HalfIsWon,
        Planted::MeanReducedByDenominator,
        Planted::LeastFrom0,
        Planted::LeastOfUnreduced,
        Planted::SharesComparedIn32Bits,
        Planted::RowFrom0,
        Planted::RowWhenAccepted,
        Planted::SharesWhenRefused,
        Planted::CountsWhenRefused,
    ];
}

/// What the function gives back for a table.
pub fn unity(table: &[Answer], planted: Planted) -> Reply {
    let mut stand_in = StandIn { planted, ..StandIn::NEW };
    match stand_in.run(table) {
        Ok(unity) => Reply {
            row: usize::from(planted == Planted::RowWhenAccepted),
            ..Reply::accepted(unity)
        },
        Err((number, row)) => stand_in.refused(number, row),
    }
}

struct StandIn {
    planted: Planted,
    /// The sum so far over the least common denominator.
    numerator: u128,
    denominator: u128,
    count: u128,
    /// None so far is as little as 1/0.
    least: (u128, u128),
    greatest: (u128, u128),
    /// The last row with a total above 0.
    last_share: usize,
    won: usize,
    empty: usize,
}

impl StandIn {
    const NEW: StandIn = StandIn {
        planted: Planted::Nothing,
        numerator: 0,
        denominator: 1,
        count: 0,
        least: (1, 0),
        greatest: (0, 1),
        last_share: 0,
        won: 0,
        empty: 0,
    };

    fn has(&self, planted: Planted) -> bool {
        self.planted == planted
    }

    fn run(&mut self, table: &[Answer]) -> Result<Unity, (u32, usize)> {
        if self.has(Planted::RangeBeforeEarlier17) {
            for (&answer, row) in table.iter().zip(1..) {
                self.check(answer, row).map_err(|number| (number, row))?;
            }
        }
        for (&answer, row) in table.iter().zip(1..) {
            self.row(answer, row, row == table.len()).map_err(|number| (number, row))?;
        }
        let last =
            if self.has(Planted::MeanNamesLastShare) { self.last_share } else { table.len() };
        let mean = self.mean().map_err(|number| (number, last));
        let is_tested = match self.planted {
            Planted::MeanNotTested => false,
            Planted::MeanNotTestedAtTotal0 => table.last() != Some(&[0; 3]),
            _ => true,
        };
        match mean {
            Err(_) if !is_tested => Ok(self.said(Share { numerator: 0, denominator: 0 })),
            mean => mean.map(|mean| self.said(mean)),
        }
    }

    fn row(&mut self, answer: Answer, row: usize, is_last: bool) -> Result<(), u32> {
        if self.has(Planted::WideBeforeRange) && answer[2] > 0 {
            StandIn { ..*self }.take_in(answer, row, is_last)?;
        }
        self.check(answer, row)?;
        self.take_in(answer, row, is_last)?;
        let is_mean_tested = match self.planted {
            Planted::MeanTestedAtEachRow => true,
            Planted::MeanTestedAtRow200 => row == 200,
            _ => false,
        };
        match is_mean_tested {
            true => self.mean().map(|_| ()),
            false => Ok(()),
        }
    }

    fn check(&self, answer: Answer, row: usize) -> Result<(), u32> {
        let rows = match self.planted {
            Planted::PlacesWithoutTotal0 => self.count as usize + 1,
            Planted::PlaceForOneMore => row - 1,
            _ => row,
        };
        let has_place = rows <= 200;
        match self.is_in_range(answer) {
            false if self.has(Planted::PlaceBeforeRange) && !has_place => Err(3),
            false => Err(2),
            true if !has_place => Err(3),
            true => Ok(()),
        }
    }

    fn is_in_range(&self, [greatest, silent, total]: Answer) -> bool {
        let limit = match self.planted {
            Planted::TotalLimitRefused => 524_279,
            Planted::TotalLimitPassed => 524_281,
            _ => 524_280,
        };
        let sum = match self.planted {
            Planted::SumIn32Bits => greatest.wrapping_add(silent).into(),
            Planted::SilentNotLookedAt => greatest.into(),
            Planted::Total0NotLookedAt if total == 0 => 0,
            _ => u64::from(greatest) + u64::from(silent),
        };
        total <= limit && sum <= total.into()
    }

    fn take_in(&mut self, answer: Answer, row: usize, is_last: bool) -> Result<(), u32> {
        let [part, _, total] = answer.map(u128::from);
        if total == 0 {
            self.empty += 1;
            self.count += u128::from(self.has(Planted::Total0InMean));
            return Ok(());
        }
        self.count += 1;
        self.last_share = row;
        let half_wins = self.has(Planted::HalfIsWon);
        self.won += usize::from(2 * part > total || half_wins && 2 * part == total);
        let reduced = reduced(part, total);
        let said = if self.has(Planted::LeastOfUnreduced) { (part, total) } else { reduced };
        self.compare(said);
        match self.has(Planted::DenominatorOfUnreduced) {
            true => self.add((part, total), is_last),
            false => self.add(reduced, is_last),
        }
    }

    fn compare(&mut self, share: (u128, u128)) {
        let is_below = |one: (u128, u128), other: (u128, u128)| match self.planted {
            Planted::SharesComparedIn32Bits => {
                ((one.0 * other.1) as u32) < (other.0 * one.1) as u32
            }
            _ => one.0 * other.1 < other.0 * one.1,
        };
        if is_below(share, self.least) {
            self.least = share;
        }
        if is_below(self.greatest, share) {
            self.greatest = share;
        }
    }

    fn add(&mut self, (numerator, denominator): (u128, u128), is_last: bool) -> Result<(), u32> {
        let factor = denominator / divisor(self.denominator, denominator);
        let product = self.denominator * denominator;
        self.denominator *= factor;
        let share = numerator * (self.denominator / denominator);
        self.numerator = self.numerator * factor + share;
        let is_denominator_fitting = match self.planted {
            Planted::DenominatorNotTested => true,
            Planted::DenominatorAsProduct => self.fits(product),
            Planted::DenominatorAtQuotient => is_below_quotient(self.denominator, factor),
            _ => self.fits(self.denominator),
        };
        let is_numerator_fitting = match self.planted {
            Planted::NumeratorNotTested => true,
            Planted::NumeratorTestedAtTheEnd => !is_last || self.fits(self.numerator),
            Planted::NumeratorTestedReduced => {
                self.fits(reduced(self.numerator, self.denominator).0)
            }
            _ => self.fits(self.numerator),
        };
        match is_denominator_fitting && is_numerator_fitting {
            true => Ok(()),
            false => Err(17),
        }
    }

    fn fits(&self, number: u128) -> bool {
        match self.planted {
            Planted::FloatingPoint => (number as f64) < 2f64.powi(64),
            Planted::OneLessFits => number < u64::MAX.into(),
            _ => number <= u64::MAX.into(),
        }
    }

    fn mean(&self) -> Result<Share, u32> {
        let count = self.count.max(1);
        let over_count = (self.numerator, self.denominator * count);
        let by_denominator = reduced(self.numerator, self.denominator);
        let mean = match self.planted {
            Planted::MeanReducedByDenominator => (by_denominator.0, by_denominator.1 * count),
            _ => reduced(over_count.0, over_count.1),
        };
        let is_fitting = match self.planted {
            Planted::MeanTestedUnreduced => self.fits(over_count.1),
            Planted::MeanAtQuotient => is_below_quotient(mean.1, self.count_left()),
            _ => self.fits(mean.1),
        };
        match is_fitting {
            true => Ok(share(mean)),
            false => Err(17),
        }
    }

    /// What is left of the count in the mean's denominator.
    fn count_left(&self) -> u128 {
        let (numerator, _) = reduced(self.numerator, self.denominator);
        reduced(numerator, self.count.max(1)).1
    }

    fn said(&self, mean: Share) -> Unity {
        let least = match self.count {
            0 => (0, 1),
            _ if self.has(Planted::LeastFrom0) => (0, 1),
            _ => self.least,
        };
        let StandIn { won, empty, .. } = *self;
        Unity { mean, least: share(least), greatest: share(self.greatest), won, empty }
    }

    fn refused(&self, number: u32, row: usize) -> Reply {
        let number = if number == 17 && self.has(Planted::Number16) { 16 } else { number };
        let row = row - usize::from(self.has(Planted::RowFrom0));
        let refused = Reply::refused(number, row);
        match self.planted {
            Planted::SharesWhenRefused => Reply { mean: Share::NONE, ..refused },
            Planted::CountsWhenRefused => Reply { won: self.won, empty: self.empty, ..refused },
            _ => refused,
        }
    }
}

/// A test by division that has one number too few: the quotient itself would do.
fn is_below_quotient(product: u128, factor: u128) -> bool {
    factor == 1 || product / factor < u128::from(u64::MAX) / factor
}

/// The greatest common divisor.
fn divisor(one: u128, other: u128) -> u128 {
    match other {
        0 => one,
        _ => divisor(other, one % other),
    }
}

fn reduced(numerator: u128, denominator: u128) -> (u128, u128) {
    let divisor = divisor(numerator, denominator);
    (numerator / divisor, denominator / divisor)
}

/// What doesn't fit loses its upper half.
fn share((numerator, denominator): (u128, u128)) -> Share {
    Share { numerator: numerator as u64, denominator: denominator as u64 }
}
