//! What may be so of a table, and of a text that is given for one.

use super::sum::{
    is_in_range, summed, Answer, Fault, Ground, Row, Sum, Unity, Wide, ROW_LIMIT, TOTAL_LIMIT,
};
use super::text::rows;
use crate::form::{self, Line, LINE_LIMIT};

/// A text and what becomes of it.
pub struct Case<'text> {
    lines: Vec<Line<'text>>,
    rows: Vec<Row>,
    result: Result<Unity, Fault>,
    sum: Sum,
}

/// Something that may be so, by its name.
pub type Outcome = (&'static str, fn(&Case) -> bool);

/// What tables and texts have to show. Up to the first refusal these are accepted.
pub const OF_BOTH: [Outcome; 25] = [
    ("in all", |_| true),
    ("accepted", |case| case.is_accepted()),
    ("no rows", |case| case.rows.is_empty()),
    ("only totals of 0", |case| case.is_accepted_as(|unity| unity.empty > 0) && case.count() == 0),
    ("200 rows", |case| case.is_accepted() && case.rows.len() == ROW_LIMIT),
    ("total 524280", |case| case.is_accepted() && case.has(|[.., total]| total == TOTAL_LIMIT)),
    ("won", |case| case.is_accepted_as(|unity| unity.won > 0)),
    ("exactly half", |case| case.is_accepted() && case.has(is_half)),
    ("denominator >= 2^63", |case| case.is_accepted() && case.sum.denominator() >= 1 << 63),
    ("numerator 2^64 - 1", |case| case.is_accepted() && case.sum.numerator() == u64::MAX.into()),
    ("times count >= 2^64", |case| case.is_accepted() && case.times_count() >= 1 << 64),
    ("mean over >= 2^63", |case| case.is_accepted_as(|unity| unity.mean.denominator >= 1 << 63)),
    ("refused=2", |case| case.is_refused(Ground::Range)),
    ("2 at row 201", |case| case.is_refused(Ground::Range) && case.is_past_the_limit()),
    ("2 behind a mean", |case| case.is_refused(Ground::Range) && case.has_wide_mean()),
    ("2, sum over 32 bits", |case| case.is_refused(Ground::Range) && case.passes_32_bits()),
    ("refused=3", |case| case.is_refused(Ground::NoPlace)),
    ("3 behind a mean", |case| case.is_refused(Ground::NoPlace) && case.has_wide_mean()),
    ("refused=17", |case| case.is_wide()),
    ("17 by denominator", |case| case.is_refused(Ground::Wide(Wide::Denominator))),
    ("17 by numerator", |case| case.is_refused(Ground::Wide(Wide::Numerator))),
    ("17 by mean", |case| case.is_refused(Ground::Wide(Wide::Mean))),
    ("17 at 2^64", |case| case.is_wide() && case.sum.numerator() == 1 << 64),
    ("17 at a total of 0", |case| case.is_wide() && case.faulty_row() == Some(Ok([0; 3]))),
    ("17 before a fault", |case| case.is_wide() && case.has_fault_behind()),
];

/// What texts have to show besides. Up to the last two these are refused with 1.
pub const OF_TEXTS: [Outcome; 7] = [
    ("refused=1", |case| case.is_refused(Ground::Form)),
    ("1 at row 201", |case| case.is_refused(Ground::Form) && case.is_past_the_limit()),
    ("1 behind a mean", |case| case.is_refused(Ground::Form) && case.has_wide_mean()),
    ("no end", |case| case.is_refused_at(|line| !line.ended && line.bytes.len() <= LINE_LIMIT)),
    ("101 bytes", |case| case.is_refused_at(|line| line.bytes.len() == LINE_LIMIT + 1)),
    ("number over 32 bits", |case| case.faulty_row() == Some(Err(Ground::Range))),
    ("100 bytes", |case| {
        case.is_refused(Ground::Range) && case.is_refused_at(|line| line.bytes.len() == LINE_LIMIT)
    }),
];

impl Case<'_> {
    pub fn new(text: &[u8]) -> Case<'_> {
        let rows = rows(text);
        let (result, sum) = summed(&rows);
        Case { lines: form::lines(text).collect(), rows, result, sum }
    }

    fn is_accepted(&self) -> bool {
        self.result.is_ok()
    }

    fn is_accepted_as(&self, holds: impl Fn(Unity) -> bool) -> bool {
        self.result.is_ok_and(holds)
    }

    fn is_refused(&self, ground: Ground) -> bool {
        self.result.is_err_and(|fault| fault.ground == ground)
    }

    fn is_refused_at(&self, holds: impl Fn(Line) -> bool) -> bool {
        self.fault().is_some_and(|place| holds(self.lines[place]))
    }

    fn is_wide(&self) -> bool {
        self.result.is_err_and(|fault| matches!(fault.ground, Ground::Wide(_)))
    }

    fn has(&self, holds: impl Fn(Answer) -> bool) -> bool {
        self.rows.iter().any(|row| row.is_ok_and(&holds))
    }

    /// How many elections enter.
    fn count(&self) -> usize {
        self.sum.count()
    }

    /// The mean's denominator before it is reduced.
    fn times_count(&self) -> u128 {
        self.sum.denominator() * self.count() as u128
    }

    /// Whether the mean of all rows so far doesn't fit, the last or not.
    fn has_wide_mean(&self) -> bool {
        self.sum.mean().is_err()
    }

    /// The place of the row with the fault.
    fn fault(&self) -> Option<usize> {
        self.result.err().map(|fault| fault.row - 1)
    }

    fn faulty_row(&self) -> Option<Row> {
        self.fault().map(|place| self.rows[place])
    }

    fn is_past_the_limit(&self) -> bool {
        self.fault() == Some(ROW_LIMIT)
    }

    fn passes_32_bits(&self) -> bool {
        let passes = |[greatest, silent, _]: Answer| greatest.checked_add(silent).is_none();
        self.faulty_row().is_some_and(|row| row.is_ok_and(passes))
    }

    /// Whether a later row has a fault of its own.
    fn has_fault_behind(&self) -> bool {
        let is_faulty = |row: &Row| !row.is_ok_and(is_in_range);
        let behind = self.fault().map_or(&[][..], |place| &self.rows[place + 1..]);
        self.rows.len() > ROW_LIMIT || behind.iter().any(is_faulty)
    }
}

fn is_half([greatest, _, total]: Answer) -> bool {
    total > 0 && 2 * u64::from(greatest) == total.into()
}
