//! The lines of a call log and of the exchanged text.

use check::model::{ConstraintRow, EditRow, Field, Ground, Rule};

/// No line is longer than this before its end.
const LINE_LIMIT: usize = 100;

/// What a line says.
#[derive(Clone, Copy)]
pub enum Order {
    Lend(Lend),
    Change(Change),
    Turn { pages: i64 },
    Adopt { edit: u32 },
    Elect { edit: u32 },
    Bundle { edit: u32, lent: u32 },
    Propose { lent: u32, old: u32, room: (u32, u32), keep: bool },
    Suggest { first: u32, second: u32, case: u32 },
    Test { lent: u32 },
    Winner { edit: u32 },
    Tally { edit: u32 },
    Why { edit: u32, lent: u32 },
    Ask(Question),
}

/// One row more of what is lent, or none of it.
#[derive(Clone, Copy)]
pub enum Lend {
    Edit { lent: u32, row: EditRow },
    Constraint { lent: u32, row: ConstraintRow },
    None { lent: u32 },
    Bench { lent: u32 },
    Seat { bench: u32, weight: u32 },
    NoRoll,
    Name(u32),
    NoRow,
}

/// A call that makes the schedule anew.
#[derive(Clone, Copy)]
pub enum Change {
    Edit(EditRow),
    Constraint(ConstraintRow),
    Merge { lent: u32 },
    Hide { edit: u32 },
    Show { edit: u32 },
}

#[derive(Clone, Copy)]
pub enum Question {
    Text,
    Report,
    Hidden,
    Schedule,
    Catalogue,
    Journal,
    Page,
}

/// Reads a line, its end included.
pub fn read(line: &[u8]) -> Result<Order, Ground> {
    let bytes = line.strip_suffix(b"\n").ok_or(Ground::Form)?;
    if bytes.len() > LINE_LIMIT {
        return Err(Ground::Form);
    }
    let mut reader = Reader { rest: bytes, fits: true };
    let order = reader.order().filter(|_| reader.rest.is_empty()).ok_or(Ground::Form)?;
    match reader.fits {
        true => Ok(order),
        false => Err(Ground::Range),
    }
}

struct Reader<'line> {
    rest: &'line [u8],
    /// Whether every number so far fits 32 bits.
    fits: bool,
}

impl<'line> Reader<'line> {
    fn order(&mut self) -> Option<Order> {
        match self.key()? {
            b"lent" => self.lend().map(Order::Lend),
            b"roll" => self.roll().map(Order::Lend),
            b"row" if self.take(b"none") => Some(Order::Lend(Lend::NoRow)),
            b"row" => Some(Order::Lend(Lend::Name(self.number()?))),
            b"edit" => {
                let name = self.number()?;
                self.edit(name).map(|row| Order::Change(Change::Edit(row)))
            }
            b"left" => self.constraint().map(|row| Order::Change(Change::Constraint(row))),
            b"do" => self.call(),
            b"ask" => self.question().map(Order::Ask),
            _ => None,
        }
    }

    /// What stands before the next `=`.
    fn key(&mut self) -> Option<&'line [u8]> {
        let length = self.rest.iter().position(|&byte| byte == b'=')?;
        let (key, rest) = self.rest.split_at(length);
        self.rest = &rest[1..];
        Some(key)
    }

    /// What stands before the next space or the line's end.
    fn word(&mut self) -> &'line [u8] {
        let length = self.rest.iter().position(|&byte| byte == b' ');
        let (word, rest) = self.rest.split_at(length.unwrap_or(self.rest.len()));
        self.rest = rest;
        word
    }

    /// Takes these bytes if they come next.
    fn take(&mut self, bytes: &[u8]) -> bool {
        let rest = self.rest.strip_prefix(bytes);
        self.rest = rest.unwrap_or(self.rest);
        rest.is_some()
    }

    /// Decimal digits without leading zeros.
    fn number(&mut self) -> Option<u32> {
        let length = self.rest.iter().take_while(|byte| byte.is_ascii_digit()).count();
        let (digits, rest) = self.rest.split_at(length);
        if digits.is_empty() || digits.len() > 1 && digits[0] == b'0' {
            return None;
        }
        self.rest = rest;
        let append = |value: u64, digit: &u8| {
            value.saturating_mul(10).saturating_add(u64::from(digit - b'0'))
        };
        let number = u32::try_from(digits.iter().fold(0, append));
        self.fits &= number.is_ok();
        Some(number.unwrap_or(0))
    }

    /// A key and its number.
    fn number_of(&mut self, key: &[u8]) -> Option<u32> {
        match self.take(key) {
            true => self.number(),
            false => None,
        }
    }

    fn lend(&mut self) -> Option<Lend> {
        let lent = self.number()?;
        if !self.take(b" ") {
            return None;
        }
        match self.key()? {
            b"edit" => {
                let name = self.number()?;
                let row = match self.take(b" kind=") {
                    true => self.edit_of_numbers(name)?,
                    false => self.edit(name)?,
                };
                Some(Lend::Edit { lent, row })
            }
            b"left" => {
                let left = self.number()?;
                if !self.take(b" rule=") {
                    return None;
                }
                let rule = match self.rest.first()?.is_ascii_digit() {
                    true => self.number()?,
                    false => self.rule()?,
                };
                let right = self.number_of(b" right=")?;
                Some(Lend::Constraint { lent, row: ConstraintRow { left, rule, right } })
            }
            b"rows" => match self.word() {
                b"none" => Some(Lend::None { lent }),
                b"bench" => Some(Lend::Bench { lent }),
                _ => None,
            },
            _ => None,
        }
    }

    fn roll(&mut self) -> Option<Lend> {
        if self.take(b"none") {
            return Some(Lend::NoRoll);
        }
        let bench = self.number()?;
        Some(Lend::Seat { bench, weight: self.number_of(b" weight=")? })
    }

    fn edit_of_numbers(&mut self, name: u32) -> Option<EditRow> {
        let kind = self.number()?;
        let place = self.number_of(b" chip=")?;
        let field = self.number_of(b" field=")?;
        Some(EditRow { name, kind, place, field, value: self.number_of(b" value=")? })
    }

    /// The edit of a line of the text, after its name.
    fn edit(&mut self, name: u32) -> Option<EditRow> {
        if !self.take(b" do=") {
            return None;
        }
        let kind = self.word();
        let place = self.number_of(b" chip=")?;
        let row = EditRow { name, kind: 0, place, field: 0, value: 0 };
        match kind {
            b"insert" => Some(row),
            b"remove" => Some(EditRow { kind: 2, ..row }),
            b"set" if self.take(b" field=") => {
                let word = self.word();
                let is_word = |field: &Field| field.word().as_bytes() == word;
                let field = Field::ALL.iter().position(is_word)? as u32;
                Some(EditRow { kind: 1, field, value: self.number_of(b" value=")?, ..row })
            }
            _ => None,
        }
    }

    fn constraint(&mut self) -> Option<ConstraintRow> {
        let left = self.number()?;
        if !self.take(b" rule=") {
            return None;
        }
        let rule = self.rule()?;
        Some(ConstraintRow { left, rule, right: self.number_of(b" right=")? })
    }

    fn rule(&mut self) -> Option<u32> {
        let word = self.word();
        let place = Rule::ALL.iter().position(|rule| rule.word().as_bytes() == word)?;
        Some(place as u32)
    }

    fn call(&mut self) -> Option<Order> {
        match self.word() {
            b"merge" => Some(Order::Change(Change::Merge { lent: self.number_of(b" lent=")? })),
            b"hide" => Some(Order::Change(Change::Hide { edit: self.number_of(b" edit=")? })),
            b"show" => Some(Order::Change(Change::Show { edit: self.number_of(b" edit=")? })),
            b"turn" if self.take(b" pages=") => {
                let sign = if self.take(b"-") { -1 } else { 1 };
                Some(Order::Turn { pages: i64::from(self.number()?) * sign })
            }
            b"adopt" => Some(Order::Adopt { edit: self.number_of(b" edit=")? }),
            b"elect" => Some(Order::Elect { edit: self.number_of(b" edit=")? }),
            b"bundle" => {
                let edit = self.number_of(b" edit=")?;
                Some(Order::Bundle { edit, lent: self.number_of(b" lent=")? })
            }
            b"why" => {
                let edit = self.number_of(b" edit=")?;
                Some(Order::Why { edit, lent: self.number_of(b" lent=")? })
            }
            b"propose" => self.propose(),
            b"suggest" => {
                let first = self.number_of(b" first=")?;
                let second = self.number_of(b" second=")?;
                Some(Order::Suggest { first, second, case: self.number_of(b" case=")? })
            }
            b"test" => Some(Order::Test { lent: self.number_of(b" lent=")? }),
            b"winner" => Some(Order::Winner { edit: self.number_of(b" edit=")? }),
            b"tally" => Some(Order::Tally { edit: self.number_of(b" edit=")? }),
            _ => None,
        }
    }

    fn propose(&mut self) -> Option<Order> {
        let lent = self.number_of(b" lent=")?;
        let old = self.number_of(b" old=")?;
        let room = (self.number_of(b" edits=")?, self.number_of(b" rules=")?);
        let keep = match self.take(b" keep=").then(|| self.word())? {
            b"yes" => true,
            b"no" => false,
            _ => return None,
        };
        Some(Order::Propose { lent, old, room, keep })
    }

    fn question(&mut self) -> Option<Question> {
        match self.word() {
            b"text" => Some(Question::Text),
            b"report" => Some(Question::Report),
            b"hidden" => Some(Question::Hidden),
            b"schedule" => Some(Question::Schedule),
            b"catalogue" => Some(Question::Catalogue),
            b"journal" => Some(Question::Journal),
            b"page" => Some(Question::Page),
            _ => None,
        }
    }
}
