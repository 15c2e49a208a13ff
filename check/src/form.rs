//! Forms of lines: text with marks, `#` for a number, `@` for an edit's name,
//! `?` for yes or no, `F` for a field's word and `R` for a rule's.

use crate::model::{ConstraintRow, EditRow, Field, Ground, Rule};

/// No line is longer than this before its end.
pub const LINE_LIMIT: usize = 100;
/// No form has more marks than this.
const MARK_LIMIT: usize = 8;
/// What every number that doesn't fit 32 bits is read as.
const TOO_LARGE: u64 = 1 << 32;

/// The forms of the text, which the log has too.
pub const INSERT: &str = "edit=@ do=insert chip=#";
pub const SET: &str = "edit=@ do=set chip=# field=F value=#";
pub const REMOVE: &str = "edit=@ do=remove chip=#";
pub const CONSTRAINT: &str = "left=@ rule=R right=@";

/// The numbers at the marks of a form, 0 where it has none.
pub type Numbers = [u32; MARK_LIMIT];

/// The row of an insert, 0, a set, 1, or a remove, 2.
pub fn edit_row(kind: u32, [name, place, field, value, ..]: Numbers) -> EditRow {
    EditRow { name, kind, place, field, value }
}

pub fn constraint_row([left, rule, right, ..]: Numbers) -> ConstraintRow {
    ConstraintRow { left, rule, right }
}

/// The line of the text that says this row, if there is one.
pub fn edit_text(row: &EditRow) -> Option<String> {
    let EditRow { name, kind, place, field, value } = row;
    let word = Field::ALL.get(*field as usize)?.word();
    match (kind, field, value) {
        (0, 0, 0) => Some(format!("edit={name} do=insert chip={place}")),
        (1, ..) => Some(format!("edit={name} do=set chip={place} field={word} value={value}")),
        (2, 0, 0) => Some(format!("edit={name} do=remove chip={place}")),
        _ => None,
    }
}

pub fn constraint_text(row: &ConstraintRow) -> Option<String> {
    let ConstraintRow { left, rule, right } = row;
    let word = Rule::ALL.get(*rule as usize)?.word();
    Some(format!("left={left} rule={word} right={right}"))
}

/// What stands at the marks, in order; a word is read as its place in its list.
#[derive(Clone, Copy, Debug, Default)]
pub struct Values {
    values: [u64; MARK_LIMIT],
    count: usize,
}

impl Values {
    fn push(&mut self, value: u64) {
        self.values[self.count] = value;
        self.count += 1;
    }

    /// The numbers, if each fits 32 bits.
    fn fitting(&self) -> Result<Numbers, Ground> {
        let mut numbers = [0; MARK_LIMIT];
        for (number, &value) in numbers.iter_mut().zip(&self.values) {
            *number = u32::try_from(value).map_err(|_| Ground::Range)?;
        }
        Ok(numbers)
    }
}

/// The first of the forms that the line has, and what stands at its marks.
pub fn find<Kind: Copy>(
    forms: &[(Kind, &str)],
    line: &[u8],
) -> Option<(Kind, Result<Numbers, Ground>)> {
    if line.len() > LINE_LIMIT {
        return None;
    }
    forms.iter().find_map(|&(kind, form)| Some((kind, read(form, line)?.fitting())))
}

fn read(form: &str, line: &[u8]) -> Option<Values> {
    let mut values = Values::default();
    let mut rest = line;
    for mark in form.bytes() {
        rest = match mark {
            b'#' | b'@' => number(rest, &mut values)?,
            b'?' => word(["no", "yes"], rest, &mut values)?,
            b'F' => word(Field::ALL.map(Field::word), rest, &mut values)?,
            b'R' => word(Rule::ALL.map(Rule::word), rest, &mut values)?,
            byte => rest.strip_prefix(&[byte])?,
        };
    }
    rest.is_empty().then_some(values)
}

/// Decimal digits without leading zeros.
fn number<'line>(line: &'line [u8], values: &mut Values) -> Option<&'line [u8]> {
    let length = line.iter().take_while(|byte| byte.is_ascii_digit()).count();
    let (digits, rest) = line.split_at(length);
    if digits.is_empty() || digits.len() > 1 && digits[0] == b'0' {
        return None;
    }
    let append = |value: u64, digit: &u8| (value * 10 + u64::from(digit - b'0')).min(TOO_LARGE);
    values.push(digits.iter().fold(0, append));
    Some(rest)
}

/// One of the words; none of them begins another.
fn word<'line, const COUNT: usize>(
    words: [&str; COUNT],
    line: &'line [u8],
    values: &mut Values,
) -> Option<&'line [u8]> {
    let read = |(place, word): (usize, &str)| Some((place, line.strip_prefix(word.as_bytes())?));
    let (place, rest) = words.into_iter().enumerate().find_map(read)?;
    values.push(place as u64);
    Some(rest)
}

/// A line as it stands in a text or log.
#[derive(Clone, Copy, Debug)]
pub struct Line<'text> {
    pub bytes: &'text [u8],
    /// Whether it has its end, byte 10.
    pub ended: bool,
}

/// The lines of a text or log. After the last end there is no further line.
pub fn lines(text: &[u8]) -> impl Iterator<Item = Line<'_>> {
    text.split_inclusive(|&byte| byte == b'\n').map(|line| match line.strip_suffix(b"\n") {
        Some(bytes) => Line { bytes, ended: true },
        None => Line { bytes: line, ended: false },
    })
}

#[cfg(test)]
mod tests {
    use super::*;

    const FORMS: [(u8, &str); 3] = [(0, "turn=#"), (1, "turn=-#"), (2, "is=? field=F rule=R")];

    fn found(line: &str) -> Option<(u8, Result<u32, Ground>)> {
        find(&FORMS, line.as_bytes()).map(|(kind, numbers)| (kind, numbers.map(|all| all[0])))
    }

    #[test]
    fn numbers_have_no_leading_zeros_and_fit_32_bits() {
        assert_eq!(found("turn=0"), Some((0, Ok(0))));
        assert_eq!(found("turn=-0"), Some((1, Ok(0))));
        assert_eq!(found("turn=4294967295"), Some((0, Ok(u32::MAX))));
        assert_eq!(found("turn=4294967296"), Some((0, Err(Ground::Range))));
        for line in ["turn=", "turn=00", "turn=01", "turn=+1", "turn=1 ", " turn=1", "turn=--1"] {
            assert_eq!(found(line), None, "{line}");
        }
    }

    #[test]
    fn a_line_may_have_100_bytes() {
        let long = |length: usize| format!("turn={}", "9".repeat(length - 5));
        assert_eq!(found(&long(100)), Some((0, Err(Ground::Range))));
        assert_eq!(found(&long(101)), None);
    }

    #[test]
    fn words_are_read_as_their_place() {
        let (_, numbers) = find(&FORMS, b"is=yes field=erase rule=noncommuting").unwrap();
        assert_eq!(numbers.unwrap()[..3], [1, 2, 2]);
        assert_eq!(found("is=yes field=erases rule=enables"), None);
    }

    #[test]
    fn a_row_with_a_text_is_read_back() {
        let forms = [(0, INSERT), (1, SET), (2, REMOVE)];
        let row = |kind, field, value| EditRow { name: 256, kind, place: 64, field, value };
        for row in [row(0, 0, 0), row(1, 3, 256), row(2, 0, 0)] {
            let text = edit_text(&row).unwrap();
            let (kind, numbers) = find(&forms, text.as_bytes()).unwrap();
            assert_eq!(edit_row(kind, numbers.unwrap()), row);
        }
        for row in [row(0, 1, 0), row(0, 0, 1), row(1, 4, 0), row(2, 0, 7), row(3, 0, 0)] {
            assert_eq!(edit_text(&row), None);
        }
        for rule in 0..3 {
            let row = ConstraintRow { left: 257, rule, right: 0 };
            let text = constraint_text(&row).unwrap();
            let (_, numbers) = find(&[(0, CONSTRAINT)], text.as_bytes()).unwrap();
            assert_eq!(constraint_row(numbers.unwrap()), row);
        }
        assert_eq!(constraint_text(&ConstraintRow { left: 257, rule: 3, right: 0 }), None);
    }

    #[test]
    fn lines_end_with_byte_10() {
        let seen: Vec<(usize, bool)> =
            lines(b"a\n\nbc").map(|line| (line.bytes.len(), line.ended)).collect();
        assert_eq!(seen, [(1, true), (0, true), (2, false)]);
        assert_eq!(lines(b"").count(), 0);
    }
}
