//! Edits, constraints, records, and the tables by which records are lent.

use super::Ground;

/// The edit that is always known, does nothing and has no row.
pub const INIT: u16 = 0;
/// How many written edits a record holds at most: 128 with INIT.
pub const EDIT_LIMIT: usize = 127;
/// How many constraints a record holds at most.
pub const CONSTRAINT_LIMIT: usize = 512;
/// How many chip places there are.
pub const PLACES: usize = 64;

#[derive(Clone, Copy, PartialEq, Eq, Debug)]
pub enum Field {
    Id,
    Size,
    Erase,
    Page,
}

impl Field {
    pub const ALL: [Field; 4] = [Field::Id, Field::Size, Field::Erase, Field::Page];

    pub fn word(self) -> &'static str {
        ["id", "size", "erase", "page"][self as usize]
    }
}

/// What an edit does to the entry at its place.
#[derive(Clone, Copy, PartialEq, Eq, Debug)]
pub enum Deed {
    Insert,
    Set { field: Field, value: u32 },
    Remove,
}

#[derive(Clone, Copy, PartialEq, Eq, Debug)]
pub struct Body {
    pub place: u8,
    pub deed: Deed,
}

#[derive(Clone, Copy, PartialEq, Eq, Debug)]
pub struct Edit {
    pub name: u16,
    pub body: Body,
}

#[derive(Clone, Copy, PartialEq, Eq, PartialOrd, Ord, Debug)]
pub enum Rule {
    NotAfter,
    Enables,
    Noncommuting,
}

impl Rule {
    pub const ALL: [Rule; 3] = [Rule::NotAfter, Rule::Enables, Rule::Noncommuting];

    pub fn word(self) -> &'static str {
        ["notafter", "enables", "noncommuting"][self as usize]
    }
}

/// The order of the fields is the order of the tables.
#[derive(Clone, Copy, PartialEq, Eq, PartialOrd, Ord, Debug)]
pub struct Constraint {
    pub left: u16,
    pub rule: Rule,
    pub right: u16,
}

impl Constraint {
    pub fn not_after(left: u16, right: u16) -> Constraint {
        Constraint { left, rule: Rule::NotAfter, right }
    }

    pub fn enables(left: u16, right: u16) -> Constraint {
        Constraint { left, rule: Rule::Enables, right }
    }

    /// The pair is stored with the lower name on the left.
    pub fn noncommuting(one: u16, other: u16) -> Constraint {
        Constraint { left: one.min(other), rule: Rule::Noncommuting, right: one.max(other) }
    }

    pub fn required(name: u16) -> Constraint {
        Constraint::enables(name, INIT)
    }

    pub fn aborted(name: u16) -> Constraint {
        Constraint::not_after(name, name)
    }

    pub fn is_decision(self) -> bool {
        match self.rule {
            Rule::NotAfter => self.left == self.right,
            Rule::Enables => self.right == INIT,
            Rule::Noncommuting => false,
        }
    }

    /// Whether the pair may stand: no 0 elsewhere than to the right of enables,
    /// no edit that enables itself, a noncommuting pair with the lower name left.
    pub fn is_allowed(self) -> bool {
        let zero_elsewhere = self.left == INIT || self.right == INIT && self.rule != Rule::Enables;
        let sides_fit = match self.rule {
            Rule::NotAfter => true,
            Rule::Enables => self.left != self.right,
            Rule::Noncommuting => self.left < self.right,
        };
        !zero_elsewhere && sides_fit
    }
}

/// Bench × 256 + sequence, bench 1 to 8, sequence 1 to 255.
pub fn is_name(number: u32) -> bool {
    (1..=8).contains(&(number >> 8)) && number & 255 != 0
}

fn name(number: u32) -> Result<u16, Ground> {
    is_name(number).then_some(number as u16).ok_or(Ground::Range)
}

fn side(number: u32) -> Result<u16, Ground> {
    if number == 0 {
        Ok(INIT)
    } else {
        name(number)
    }
}

/// A row of a lent table of edits, with any numbers.
#[derive(Clone, Copy, PartialEq, Eq, Debug)]
#[repr(C)]
pub struct EditRow {
    pub name: u32,
    pub kind: u32,
    pub place: u32,
    pub field: u32,
    pub value: u32,
}

impl EditRow {
    /// The edit, if every number is in its range. The columns that an insert or
    /// a remove doesn't use have only 0 in theirs.
    pub fn edit(self) -> Result<Edit, Ground> {
        let name = name(self.name)?;
        if self.place as usize >= PLACES {
            return Err(Ground::Range);
        }
        let deed = match self.kind {
            1 => {
                let field = Field::ALL.get(self.field as usize).ok_or(Ground::Range)?;
                Deed::Set { field: *field, value: self.value }
            }
            0 if self.has_no_cell() => Deed::Insert,
            2 if self.has_no_cell() => Deed::Remove,
            _ => return Err(Ground::Range),
        };
        Ok(Edit { name, body: Body { place: self.place as u8, deed } })
    }

    fn has_no_cell(self) -> bool {
        self.field == 0 && self.value == 0
    }
}

impl From<Edit> for EditRow {
    fn from(edit: Edit) -> EditRow {
        let (kind, field, value) = match edit.body.deed {
            Deed::Insert => (0, 0, 0),
            Deed::Set { field, value } => (1, field as u32, value),
            Deed::Remove => (2, 0, 0),
        };
        let (name, place) = (u32::from(edit.name), u32::from(edit.body.place));
        EditRow { name, kind, place, field, value }
    }
}

/// A row of a lent table of constraints, with any numbers.
#[derive(Clone, Copy, PartialEq, Eq, PartialOrd, Ord, Debug)]
#[repr(C)]
pub struct ConstraintRow {
    pub left: u32,
    pub rule: u32,
    pub right: u32,
}

impl ConstraintRow {
    /// The constraint, if every number is in its range. 0 is in the range of
    /// either side; where it may not stand, the pair isn't allowed.
    pub fn constraint(self) -> Result<Constraint, Ground> {
        let rule = *Rule::ALL.get(self.rule as usize).ok_or(Ground::Range)?;
        Ok(Constraint { left: side(self.left)?, rule, right: side(self.right)? })
    }
}

impl From<Constraint> for ConstraintRow {
    fn from(constraint: Constraint) -> ConstraintRow {
        ConstraintRow {
            left: u32::from(constraint.left),
            rule: constraint.rule as u32,
            right: u32::from(constraint.right),
        }
    }
}

/// A record as it is lent: rows with any numbers, in any order.
#[derive(Clone, Default, PartialEq, Eq, Debug)]
pub struct Tables {
    pub edits: Vec<EditRow>,
    pub constraints: Vec<ConstraintRow>,
}

impl Tables {
    pub fn new(edits: &[Edit], constraints: &[Constraint]) -> Tables {
        Tables {
            edits: edits.iter().map(|&edit| edit.into()).collect(),
            constraints: constraints.iter().map(|&constraint| constraint.into()).collect(),
        }
    }
}

impl From<&Record> for Tables {
    fn from(record: &Record) -> Tables {
        Tables::new(&record.edits, &record.constraints)
    }
}

/// A checked record: both tables ascending without repeats and within their
/// limits, the ends of each constraint known, each pair allowed.
#[derive(Clone, Default, PartialEq, Eq, Debug)]
pub struct Record {
    pub edits: Vec<Edit>,
    pub constraints: Vec<Constraint>,
}

impl Record {
    /// The lent record that joins `base`, if none of its rows has a fault.
    pub fn checked(tables: &Tables, base: &Record) -> Result<Record, Ground> {
        let mut joining = Joining::new(base);
        for &row in &tables.edits {
            joining.edit(row)?;
        }
        for &row in &tables.constraints {
            joining.constraint(row)?;
        }
        Ok(joining.table)
    }

    /// The lent record, if none of its rows has a fault.
    pub fn lent(tables: &Tables) -> Result<Record, Ground> {
        Record::checked(tables, &Record::default())
    }

    pub fn edit(&self, name: u16) -> Option<&Edit> {
        let place = self.edits.binary_search_by_key(&name, |edit| edit.name);
        place.ok().map(|place| &self.edits[place])
    }

    /// The index of a name: 0 of INIT, from 1 on of the edits.
    pub fn index(&self, name: u16) -> Option<usize> {
        if name == INIT {
            return Some(0);
        }
        let place = self.edits.binary_search_by_key(&name, |edit| edit.name);
        place.ok().map(|place| place + 1)
    }

    pub fn knows(&self, name: u16) -> bool {
        self.index(name).is_some()
    }

    pub fn has(&self, constraint: Constraint) -> bool {
        self.constraints.binary_search(&constraint).is_ok()
    }

    /// Whether an order between two edits is recorded, either way.
    pub fn has_order(&self, one: u16, other: u16) -> bool {
        self.has(Constraint::not_after(one, other)) || self.has(Constraint::not_after(other, one))
    }

    /// The index of an edit that a call speaks of.
    pub fn named(&self, number: u32) -> Result<usize, Ground> {
        self.index(name(number)?).ok_or(Ground::Unknown)
    }

    /// What add is given: a constraint between edits of this record.
    pub fn added_constraint(&self, row: ConstraintRow) -> Result<Constraint, Ground> {
        let constraint = row.constraint()?;
        let room = self.constraints.len() < CONSTRAINT_LIMIT;
        if !room && !self.has(constraint) {
            return Err(Ground::NoPlace);
        }
        self.check_pair(constraint)?;
        if constraint.is_decision() {
            return Err(Ground::Decision);
        }
        Ok(constraint)
    }

    /// Both ends known to this record and the pair allowed.
    fn check_pair(&self, constraint: Constraint) -> Result<(), Ground> {
        if !self.knows(constraint.left) || !self.knows(constraint.right) {
            return Err(Ground::Unknown);
        }
        if !constraint.is_allowed() {
            return Err(Ground::Pair);
        }
        Ok(())
    }

    /// Set union. One name has one body in both: `Joining` saw to that.
    pub fn union(&self, other: &Record) -> Record {
        Record {
            edits: union_by(&self.edits, &other.edits, |edit| edit.name),
            constraints: union_by(&self.constraints, &other.constraints, |constraint| *constraint),
        }
    }

    /// Takes in more constraints, if there is place for those that are new.
    pub fn take_in(&mut self, mut constraints: Vec<Constraint>) -> Result<(), Ground> {
        constraints.sort_unstable();
        constraints.dedup();
        let union = union_by(&self.constraints, &constraints, |constraint| *constraint);
        if union.len() > CONSTRAINT_LIMIT {
            return Err(Ground::NoPlace);
        }
        self.constraints = union;
        Ok(())
    }
}

/// The union of two tables in order, each row once.
fn union_by<Row: Copy, Key: Ord>(
    first: &[Row],
    second: &[Row],
    key: impl Fn(&Row) -> Key,
) -> Vec<Row> {
    let mut union = Vec::with_capacity(first.len() + second.len());
    let (mut first, mut second) = (first, second);
    while let ([one, first_rest @ ..], [other, second_rest @ ..]) = (first, second) {
        let (one_key, other_key) = (key(one), key(other));
        union.push(if one_key <= other_key { *one } else { *other });
        if one_key <= other_key {
            first = first_rest;
        }
        if other_key <= one_key {
            second = second_rest;
        }
    }
    union.extend_from_slice(first);
    union.extend_from_slice(second);
    union
}

/// Rows that join a record one after the other, each judged as it comes, with
/// the lowest number that applies to it.
pub struct Joining<'base> {
    base: &'base Record,
    /// The rows so far.
    pub table: Record,
    /// How many of them the joined record doesn't have.
    new_edits: usize,
    new_constraints: usize,
}

impl<'base> Joining<'base> {
    pub fn new(base: &'base Record) -> Joining<'base> {
        Joining { base, table: Record::default(), new_edits: 0, new_constraints: 0 }
    }

    pub fn edit(&mut self, row: EditRow) -> Result<(), Ground> {
        let edit = row.edit()?;
        let known = self.base.edit(edit.name);
        let repeated = self.table.edit(edit.name).is_some();
        let is_new = known.is_none() && !repeated;
        if is_new && self.base.edits.len() + self.new_edits >= EDIT_LIMIT {
            return Err(Ground::NoPlace);
        }
        // A repeated name is out of order and never "known with another body".
        if !repeated && known.is_some_and(|known| known.body != edit.body) {
            return Err(Ground::OtherBody);
        }
        if !self.edit_follows(edit) {
            return Err(Ground::Order);
        }
        self.new_edits += usize::from(is_new);
        self.table.edits.push(edit);
        Ok(())
    }

    /// In a text an edit can come after a constraint, which is out of order.
    fn edit_follows(&self, edit: Edit) -> bool {
        self.table.constraints.is_empty()
            && self.table.edits.last().is_none_or(|last| last.name < edit.name)
    }

    pub fn constraint(&mut self, row: ConstraintRow) -> Result<(), Ground> {
        let constraint = row.constraint()?;
        let is_new = !self.base.has(constraint) && !self.table.has(constraint);
        if is_new && self.base.constraints.len() + self.new_constraints >= CONSTRAINT_LIMIT {
            return Err(Ground::NoPlace);
        }
        // The constraints of a lent record know only its own edits.
        self.table.check_pair(constraint)?;
        if self.table.constraints.last().is_some_and(|last| *last >= constraint) {
            return Err(Ground::Order);
        }
        self.new_constraints += usize::from(is_new);
        self.table.constraints.push(constraint);
        Ok(())
    }
}
