//! The grounds on which a call is turned away.

/// A ground with document 01's number.
#[derive(Clone, Copy, PartialEq, Eq, PartialOrd, Ord, Debug)]
#[repr(u8)]
pub enum Ground {
    /// 1: the line is not in its form.
    Form = 1,
    /// 2: a number is outside its range.
    Range = 2,
    /// 3: a new row has no place left.
    NoPlace = 3,
    /// 4: the name is known with another body.
    OtherBody = 4,
    /// 5: the edit is not known.
    Unknown = 5,
    /// 6: the pair is not allowed.
    Pair = 6,
    /// 7: a decision was given to add.
    Decision = 7,
    /// 8: the record would not be sound.
    Unsound = 8,
    /// 9: to hide what must stand or is hidden, to show what isn't hidden.
    Hiding = 9,
    /// 10: a turn below 0 or past the last page.
    Turn = 10,
    /// 11: a new proposal that doesn't keep the old one.
    NotKept = 11,
    /// 12: the lent output is too short.
    TooShort = 12,
    /// 13: a row is out of order or repeated.
    Order = 13,
    /// 14: any fault of a roll.
    Roll = 14,
    /// 15: the edit is neither must nor never.
    NoReason = 15,
}

impl Ground {
    pub const ALL: [Ground; 15] = [
        Ground::Form,
        Ground::Range,
        Ground::NoPlace,
        Ground::OtherBody,
        Ground::Unknown,
        Ground::Pair,
        Ground::Decision,
        Ground::Unsound,
        Ground::Hiding,
        Ground::Turn,
        Ground::NotKept,
        Ground::TooShort,
        Ground::Order,
        Ground::Roll,
        Ground::NoReason,
    ];

    pub fn number(self) -> u8 {
        self as u8
    }
}
