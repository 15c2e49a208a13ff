//! Records at the limits, by shape: 127 edits and, where the shape has that many,
//! 512 constraints. The shapes are those by which the notes on Rattle compare ways
//! to judge and to schedule.

use check::model::{
    propose, text, Body, Constraint, Deed, Edit, Field, Record, Room, Rule, Sound, Tables,
    CONSTRAINT_LIMIT, EDIT_LIMIT,
};
use check::random::Random;
use std::collections::BTreeSet;

/// Left, rule, right, by index.
pub type Row = (usize, Rule, usize);

/// How often a random row is tried for: a shape may have fewer rows than fit.
const TRY_LIMIT: usize = 200_000;
/// How many edits of a bench are in a shape, so that names have gaps.
const BENCH_SHARE: usize = 20;

pub struct Shape {
    pub name: &'static str,
    pub record: Record,
}

/// All shapes; each is a sound record.
pub fn shapes() -> Vec<Shape> {
    vec![
        shape("sparse", sparse()),
        shape("enables", enables()),
        shape("notafter", notafter()),
        shape("dense", dense()),
        shape("permuted", permuted()),
        shape("required", required()),
    ]
}

/// Rows of every rule between any edits, two of which are required.
fn sparse() -> BTreeSet<Row> {
    let rows = [(5, Rule::Enables, 0), (60, Rule::Enables, 0)];
    filled(rows.into(), 1, |random| {
        let (low, high) = any_two(random);
        match random.below(4) {
            0 | 1 if random.one_in(20) => (high, Rule::NotAfter, low),
            0 | 1 => (low, Rule::NotAfter, high),
            2 => (low, Rule::Enables, high.min(low + 8)),
            _ => (low, Rule::Noncommuting, high),
        }
    })
}

/// Each edit enables the next and is notafter it.
fn enables() -> BTreeSet<Row> {
    let links = (1..EDIT_LIMIT)
        .flat_map(|edit| [(edit, Rule::Enables, edit + 1), (edit, Rule::NotAfter, edit + 1)]);
    filled(links.collect(), 2, |random| {
        let (low, high) = any_two(random);
        let rule = if random.one_in(3) { Rule::Noncommuting } else { Rule::NotAfter };
        (low, rule, high)
    })
}

/// Each edit enables the next, which is notafter it.
fn notafter() -> BTreeSet<Row> {
    let links = (1..EDIT_LIMIT)
        .flat_map(|edit| [(edit, Rule::Enables, edit + 1), (edit + 1, Rule::NotAfter, edit)]);
    filled(links.collect(), 3, |random| {
        let (low, high) = any_two(random);
        match random.one_in(3) {
            true => (low, Rule::Noncommuting, high),
            false => (high, Rule::NotAfter, low),
        }
    })
}

/// Many edits enable each, few rows go back, one edit is required.
fn dense() -> BTreeSet<Row> {
    filled([(3, Rule::Enables, 0)].into(), 4, |random| {
        let (low, high) = any_two(random);
        match random.one_in(2) {
            true => (low, Rule::Enables, high),
            false if random.one_in(60) => (high, Rule::NotAfter, low),
            false => (low, Rule::NotAfter, high),
        }
    })
}

/// A chain of enables and notafter through all edits in any order.
fn permuted() -> BTreeSet<Row> {
    let mut order: Vec<usize> = (1..=EDIT_LIMIT).collect();
    Random::new(5).shuffle(&mut order);
    let links = order
        .windows(2)
        .flat_map(|two| [(two[0], Rule::Enables, two[1]), (two[0], Rule::NotAfter, two[1])]);
    filled(links.collect(), 6, |random| {
        let (low, high) = any_two(random);
        (order[low - 1], Rule::NotAfter, order[high - 1])
    })
}

/// 99 required edits, and notafter from each edit to the one before it.
fn required() -> BTreeSet<Row> {
    let decisions = (1..100).map(|edit| (edit, Rule::Enables, 0));
    let links = (1..EDIT_LIMIT).map(|edit| (edit + 1, Rule::NotAfter, edit));
    filled(decisions.chain(links).collect(), 7, |random| {
        let (low, high) = any_two(random);
        (high, Rule::NotAfter, low)
    })
}

/// Two different edits, the lower first.
pub fn any_two(random: &mut Random) -> (usize, usize) {
    let low = random.between(1, EDIT_LIMIT - 1);
    (low, random.between(low + 1, EDIT_LIMIT))
}

/// Fills the table with random rows.
pub fn filled(
    mut rows: BTreeSet<Row>,
    seed: u64,
    row: impl Fn(&mut Random) -> Row,
) -> BTreeSet<Row> {
    let mut random = Random::new(seed);
    for _ in 0..TRY_LIMIT {
        if rows.len() == CONSTRAINT_LIMIT {
            break;
        }
        rows.insert(row(&mut random));
    }
    rows
}

fn shape(name: &'static str, rows: BTreeSet<Row>) -> Shape {
    Shape { name, record: sound_record(name, rows) }
}

/// A record of all edits with these constraints.
pub fn sound_record(name: &str, rows: BTreeSet<Row>) -> Record {
    let constraint =
        |(left, rule, right)| Constraint { left: name_at(left), rule, right: name_at(right) };
    let record = Record {
        edits: (1..=EDIT_LIMIT).map(edit_at).collect(),
        constraints: rows.into_iter().map(constraint).collect(),
    };
    assert!(Sound::new(&record).is_ok(), "the record {name} is sound");
    record
}

/// Names ascend with the index and have gaps.
fn name_at(index: usize) -> u16 {
    match index.checked_sub(1) {
        None => 0,
        Some(place) => (256 * (1 + place / BENCH_SHARE) + 1 + 3 * (place % BENCH_SHARE)) as u16,
    }
}

/// Two edits of each place follow one another: an insert, and a set or a remove.
fn edit_at(index: usize) -> Edit {
    let place = ((index - 1) / 2) as u8;
    let deed = match index % 10 {
        1 | 3 | 5 | 7 | 9 => Deed::Insert,
        0 => Deed::Remove,
        _ => Deed::Set { field: Field::ALL[index % 4], value: index as u32 * 40_009 },
    };
    Edit { name: name_at(index), body: Body { place, deed } }
}

/// An election on a late edit between two rival records.
pub struct Ballot {
    pub edit: u32,
    pub first: Tables,
    pub rival: Tables,
}

impl Shape {
    pub fn tables(&self) -> Tables {
        Tables::from(&self.record)
    }

    pub fn text(&self) -> Vec<u8> {
        let mut text = Vec::new();
        text::write_text(&self.record, &mut text);
        text
    }

    /// The record in two parts of which it is the union. Constraints go by turns
    /// to either; each part has the edits that its constraints speak of, and the
    /// edits that none speaks of go by turns too.
    pub fn halves(&self) -> [Tables; 2] {
        [0, 1].map(|part| {
            let rows = self.record.constraints.iter().skip(part).step_by(2);
            let constraints: Vec<Constraint> = rows.copied().collect();
            let named: BTreeSet<u16> =
                constraints.iter().flat_map(|row| [row.left, row.right]).collect();
            let edits = self.record.edits.iter().enumerate();
            let edits =
                edits.filter(|(place, edit)| place % 2 == part || named.contains(&edit.name));
            Tables::from(&Record { edits: edits.map(|(_, edit)| *edit).collect(), constraints })
        })
    }

    /// Proposals of the shape that differ in one body of the last page's bundle:
    /// its own.
    pub fn ballot(&self) -> Ballot {
        let first = self.decided();
        let place = last_place(&first);
        let mut rival = first.clone();
        rival.edits[place].body.deed = Deed::Set { field: Field::Id, value: u32::MAX };
        let edit = first.edits[place].name.into();
        Ballot { edit, first: Tables::from(&first), rival: Tables::from(&rival) }
    }

    /// A proposal of the shape, all of it decided: so many constraints of the
    /// shape as leave place for the decisions.
    fn decided(&self) -> Record {
        let room = Room { edits: EDIT_LIMIT, constraints: CONSTRAINT_LIMIT };
        let proposal = |count: usize| {
            let constraints = spread(&self.record.constraints, count);
            let from = Record { edits: self.record.edits.clone(), constraints };
            propose(&Tables::from(&from), &Tables::default(), room).ok()
        };
        let mut counts = (0..=self.record.constraints.len()).rev();
        counts.find_map(proposal).expect("the edits alone can be decided")
    }
}

/// Where the edit of the schedule's last page stands in the table.
fn last_place(record: &Record) -> usize {
    let sound = Sound::new(record).expect("a proposal is sound");
    let schedule = sound.schedule_with_nothing_hidden();
    schedule.last().expect("INIT is scheduled").checked_sub(1).expect("some edit stands")
}

/// So many of the rows, evenly spread over the table.
fn spread(rows: &[Constraint], count: usize) -> Vec<Constraint> {
    let taken = |place: &usize| place * count / rows.len() < (place + 1) * count / rows.len();
    (0..rows.len()).filter(taken).map(|place| rows[place]).collect()
}
