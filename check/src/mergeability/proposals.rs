//! The proposals of a history, made by the call that makes proposals.

use super::answers::{Answers, Failure};
use super::pool::Pool;
use super::roll::Roll;
use crate::compare::Other;
use crate::lent::lending;
use crate::model::{text, Record, Tables, BENCHES};
use crate::random::tables::World;
use crate::random::Random;

/// A proposal and the call that made it, from 0.
pub struct Proposal {
    pub call: usize,
    pub record: Record,
}

/// What became of the calls.
#[derive(Default)]
pub struct Sent {
    pub calls: usize,
    rows: [Vec<Proposal>; BENCHES],
    /// The numbers with which calls were refused. Their proposals are not sent.
    pub refused: Vec<u32>,
}

impl Sent {
    /// The row of a bench before a call.
    pub fn row(&self, bench: usize, before: usize) -> &[Proposal] {
        let row = &self.rows[bench - 1];
        &row[..row.partition_point(|proposal| proposal.call < before)]
    }

    /// Reads the answers to the calls of these benches. A proposal that isn't sound
    /// gets 8, one that doesn't keep the old one 11; nothing else is wrong with any.
    fn read(benches: &[usize], answers: &[u8]) -> Result<Sent, Failure> {
        let mut sent = Sent { calls: benches.len(), ..Sent::default() };
        let mut answers = Answers::new(answers);
        for (call, &bench) in benches.iter().enumerate() {
            match answers.record() {
                Ok(text) => sent.rows[bench - 1].push(Proposal { call, record: read(&text)? }),
                Err(Failure::Refused(number @ (8 | 11))) => sent.refused.push(number),
                Err(failure) => return Err(failure),
            }
        }
        answers.end().map(|()| sent)
    }
}

/// The record that an answer has as its text.
pub fn read(text: &[u8]) -> Result<Record, Failure> {
    text::read(text).map_err(|_| Failure::Unexpected(text.to_vec()))
}

/// Has the benches make their proposals, in one log.
pub fn send(roll: &Roll, random: &mut Random, other: &mut dyn Other) -> Result<Sent, Failure> {
    let mut calls = Calls::new(roll, random);
    for _ in 0..calls.random.between(30, 60) {
        calls.propose();
    }
    let answers = other.replay(calls.log.as_bytes());
    Sent::read(&calls.benches, &answers)
}

/// The calls so far.
struct Calls<'history> {
    random: &'history mut Random,
    roll: &'history Roll,
    pool: Pool,
    /// The same names with other bodies and other constraints.
    other_pool: Pool,
    /// How much of the pool each bench knows.
    known: [usize; BENCHES],
    log: String,
    /// Whose proposal each call makes.
    benches: Vec<usize>,
}

impl<'history> Calls<'history> {
    fn new(roll: &'history Roll, random: &'history mut Random) -> Calls<'history> {
        let mut world = World::new(random.between(3, 9), random);
        let pool = Pool::new(&world, random);
        for place in 0..world.edits.len() {
            world.edits[place].body = world.any_body(random);
        }
        let other_pool = Pool::new(&world, random);
        let (known, log, benches) = ([0; BENCHES], String::new(), Vec::new());
        Calls { random, roll, pool, other_pool, known, log, benches }
    }

    /// A bench, a voter more often than not, makes a proposal from what it knows or
    /// from another's proposal.
    fn propose(&mut self) {
        let bench = match self.random.one_in(3) {
            true => self.random.between(1, BENCHES),
            false => self.random.pick(&self.roll.voters()),
        };
        if !self.roll.keeps(bench) {
            self.log += &format!("lent={bench} rows=none\n");
        }
        let from = match self.random.one_in(2) {
            true => self.another(bench),
            false => self.lend_part(bench),
        };
        let call = format!("do=propose lent={from} old={bench} edits=127 rules=512 keep=yes\n");
        self.log += &call;
        self.benches.push(bench);
    }

    /// Voters look at one another alone: among them an edit has one body.
    fn another(&mut self, bench: usize) -> usize {
        let mut others = match self.roll.is_voter(bench) {
            true => self.roll.voters(),
            false => (1..=BENCHES).collect(),
        };
        others.retain(|&other| other != bench);
        self.random.pick(&others)
    }

    /// Lends what a bench knows as record 0. One that doesn't keep learns anew, and
    /// without weight it may have other bodies.
    fn lend_part(&mut self, bench: usize) -> usize {
        let size = self.pool.edits.len();
        let known = match self.roll.keeps(bench) {
            true => (self.known[bench - 1] + self.random.between(1, 3)).min(size),
            false => self.random.between(1, size),
        };
        self.known[bench - 1] = known;
        let has_other_bodies = !self.roll.is_voter(bench) && self.random.one_in(2);
        let pool = if has_other_bodies { &self.other_pool } else { &self.pool };
        self.log += &lending(0, &Tables::from(&pool.part(known, self.random)));
        0
    }
}
