//! The sum over a table of election answers, row by row.

use super::factors::Factors;
use super::share::{lowest, Share};

/// No table has more rows than this.
pub const ROW_LIMIT: usize = 200;
/// No total is greater: eight weights of 16 bits.
pub const TOTAL_LIMIT: u32 = 524_280;

/// What an election came to: greatest group, silent weight and total.
pub type Answer = [u32; 3];

/// Why a table is turned away.
#[derive(Clone, Copy, PartialEq, Eq, Debug)]
pub enum Ground {
    /// 1: the line is not in its form.
    Form,
    /// 2: a number is outside its range.
    Range,
    /// 3: the row has no place left.
    NoPlace,
    /// 17: something doesn't fit in 64 bits.
    Wide(Wide),
}

/// What it is that doesn't fit.
#[derive(Clone, Copy, PartialEq, Eq, Debug)]
pub enum Wide {
    /// The least common denominator of the shares so far.
    Denominator,
    /// The numerator of their sum over it.
    Numerator,
    /// The denominator of the mean.
    Mean,
}

impl Ground {
    pub fn number(self) -> u32 {
        match self {
            Ground::Form => 1,
            Ground::Range => 2,
            Ground::NoPlace => 3,
            Ground::Wide(_) => 17,
        }
    }
}

/// A ground and its row, from 1.
#[derive(Clone, Copy, PartialEq, Eq, Debug)]
pub struct Fault {
    pub ground: Ground,
    pub row: usize,
}

/// How united the benches are.
#[derive(Clone, Copy, PartialEq, Eq, Debug)]
pub struct Unity {
    pub mean: Share,
    pub least: Share,
    pub greatest: Share,
    pub won: usize,
    pub empty: usize,
}

/// A row of a table. A line of a text may give a ground in its place: it is a row
/// nevertheless, so that none before it is the last.
pub type Row = Result<Answer, Ground>;

/// What a table comes to, and the sum over its rows up to there.
pub fn summed(rows: &[Row]) -> (Result<Unity, Fault>, Sum) {
    let mut sum = Sum::default();
    let taken = rows.iter().zip(1..).try_for_each(|(&answer, row)| {
        let checked = answer.and_then(|answer| check(answer, row));
        checked.and_then(|answer| sum.take_in(answer)).map_err(|ground| Fault { ground, row })
    });
    let at_last = |ground| Fault { ground, row: rows.len() };
    (taken.and_then(|()| sum.unity().map_err(at_last)), sum)
}

/// The answer, if its numbers are in their ranges and it has a place.
fn check(answer: Answer, row: usize) -> Result<Answer, Ground> {
    if !is_in_range(answer) {
        Err(Ground::Range)
    } else if row > ROW_LIMIT {
        Err(Ground::NoPlace)
    } else {
        Ok(answer)
    }
}

/// Group and silent weight may be any numbers: their sum can take 33 bits.
pub fn is_in_range([greatest, silent, total]: Answer) -> bool {
    total <= TOTAL_LIMIT && u64::from(greatest) + u64::from(silent) <= total.into()
}

/// The elections so far.
#[derive(Default)]
pub struct Sum {
    /// Of those with a total above 0; the others enter nothing.
    shares: Vec<Share>,
    /// Those of the least common denominator.
    factors: Factors,
    won: usize,
    empty: usize,
}

impl Sum {
    fn take_in(&mut self, [greatest, _, total]: Answer) -> Result<(), Ground> {
        if total == 0 {
            self.empty += 1;
            return Ok(());
        }
        let share = Share::of(greatest, total);
        self.shares.push(share);
        self.factors.unite(&Factors::of(share.denominator));
        self.won += usize::from(2 * greatest > total);
        fitting(self.denominator(), Wide::Denominator)?;
        fitting(self.numerator(), Wide::Numerator)?;
        Ok(())
    }

    /// How many elections enter.
    pub fn count(&self) -> usize {
        self.shares.len()
    }

    /// The least common denominator. A row makes it at most 524,280 times as great,
    /// and it is tested at each: it is far from 128 bits.
    pub fn denominator(&self) -> u128 {
        self.factors.product()
    }

    /// That of the sum over the least common denominator, not reduced.
    pub fn numerator(&self) -> u128 {
        let denominator = self.denominator();
        let over_it = |share: &Share| {
            u128::from(share.numerator) * (denominator / u128::from(share.denominator))
        };
        self.shares.iter().map(over_it).sum()
    }

    fn unity(&self) -> Result<Unity, Ground> {
        Ok(Unity {
            mean: self.mean()?,
            least: self.shares.iter().copied().min_by(Share::compare).unwrap_or(Share::NONE),
            greatest: self.shares.iter().copied().max_by(Share::compare).unwrap_or(Share::NONE),
            won: self.won,
            empty: self.empty,
        })
    }

    /// Only reduced it has to fit.
    pub fn mean(&self) -> Result<Share, Ground> {
        let count = self.count() as u64;
        if count == 0 {
            return Ok(Share::NONE);
        }
        let mut factors = Factors::of(count);
        factors.unite(&self.factors);
        let denominator = self.denominator() * u128::from(count);
        let (numerator, denominator) = lowest(self.numerator(), denominator, factors.primes());
        Ok(Share {
            numerator: fitting(numerator, Wide::Mean)?,
            denominator: fitting(denominator, Wide::Mean)?,
        })
    }
}

fn fitting(number: u128, wide: Wide) -> Result<u64, Ground> {
    u64::try_from(number).map_err(|_| Ground::Wide(wide))
}
