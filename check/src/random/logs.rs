//! Random call logs. The maker runs the model alongside, so that its calls speak
//! of what is there, and of what is almost there.

mod calls;
mod lending;
mod limits;
mod proposals;
mod reasons;
mod votes;

use super::damage::damaged;
use super::tables::World;
use super::Random;
use crate::log::Session;
use crate::model::BENCHES;

/// A random log of about so many lines; some are longer.
pub fn log(seed: u64, calls: usize) -> Vec<u8> {
    let mut maker = Maker::new(seed);
    if maker.mood == Mood::Full {
        maker.fill();
        // To fill a record takes lines of its own.
        maker.lines = 0;
    }
    while maker.lines < calls {
        maker.episode();
    }
    maker.finish()
}

/// What a log is mostly about.
#[derive(Clone, Copy, PartialEq, Eq)]
enum Mood {
    Bench,
    Lending,
    Reasons,
    Votes,
    Proposals,
    Crowd,
    Full,
}

struct Maker {
    random: Random,
    mood: Mood,
    world: World,
    session: Session,
    log: Vec<u8>,
    lines: usize,
    /// Whether lines are said without damage: of many rows one would be lost.
    careful: bool,
}

impl Maker {
    fn new(seed: u64) -> Maker {
        let mut random = Random::new(seed);
        let moods = [Mood::Bench, Mood::Lending, Mood::Reasons, Mood::Votes, Mood::Proposals];
        let mood = match random.below(24) {
            0..=2 => Mood::Full,
            3 | 4 => Mood::Crowd,
            _ => random.pick(&moods),
        };
        let size = match mood {
            Mood::Full => random.between(130, 140),
            Mood::Crowd => random.between(40, 60),
            _ => random.pick(&[2, 3, 4, 6, 9, 14, 25]),
        };
        let world = World::new(size, &mut random);
        let session = Session::default();
        Maker { random, mood, world, session, log: Vec::new(), lines: 0, careful: false }
    }

    /// The last line may lack its end or be cut.
    fn finish(mut self) -> Vec<u8> {
        match self.random.below(12) {
            0 => drop(self.log.pop()),
            1 => self.log.truncate(self.log.len() - self.random.below(self.log.len().min(30) + 1)),
            _ => {}
        }
        self.log
    }

    /// Puts a line into the log; now and then a damaged one before it or for it.
    fn say(&mut self, line: &str) {
        if !self.careful && self.random.one_in(70) {
            let bytes = damaged(line, &mut self.random);
            self.put(&bytes);
            if self.random.one_in(3) {
                return;
            }
        }
        self.put(format!("{line}\n").as_bytes());
    }

    fn put(&mut self, bytes: &[u8]) {
        self.log.extend_from_slice(bytes);
        self.session.feed(bytes);
        self.lines += 1;
    }

    /// Says a line of the exchanged text, which ends itself.
    fn say_written(&mut self, write: impl FnOnce(&mut Vec<u8>)) {
        let mut line = Vec::new();
        write(&mut line);
        let line = String::from_utf8(line).expect("lines are plain text");
        self.say(line.trim_end());
    }

    /// An edit of the bench if it has any.
    fn bench_name(&mut self) -> u32 {
        let edits = &self.session.bench.record().edits;
        if edits.is_empty() || self.random.one_in(12) {
            return u32::from(self.world.any_name(&mut self.random));
        }
        u32::from(self.random.pick(edits).name)
    }

    /// A name that a call may speak of, or a number that isn't one.
    fn name_for_call(&mut self) -> u32 {
        match self.random.below(14) {
            0 => self.random.odd_number(),
            1 => 0,
            2 => u32::from(self.world.any_name(&mut self.random)),
            _ => self.bench_name(),
        }
    }

    fn slot(&mut self) -> usize {
        self.random.below(BENCHES + 1)
    }

    /// A record's number as a line gives it; sometimes there is no such record.
    fn said_slot(&mut self, slot: usize) -> u32 {
        if !self.careful && self.random.one_in(60) {
            return self.random.pick(&[9, 10, 255, 256, 65_536, u32::MAX]);
        }
        slot as u32
    }

    fn episode(&mut self) {
        let favourite = self.random.one_in(2);
        match self.mood {
            Mood::Bench if favourite => self.on_the_bench(),
            Mood::Lending if favourite => self.lend_and_use(),
            Mood::Reasons if favourite => self.any_reason(),
            Mood::Votes if favourite => self.any_vote(),
            Mood::Proposals if favourite => self.propose_and_vote(),
            Mood::Crowd if favourite => self.crowded_proposal(),
            Mood::Full if favourite => self.at_the_limits(),
            _ => self.any_episode(),
        }
    }

    fn any_episode(&mut self) {
        match self.random.below(21) {
            0..=7 => self.on_the_bench(),
            8 => self.ask(),
            9 => self.suggest(),
            10 | 11 => self.lend_and_use(),
            12 => self.merge_known(),
            13 => self.any_vote(),
            14 => self.contrary_vote(),
            15 => self.propose_and_vote(),
            16 => self.hidden_must(),
            17 => self.chain(),
            18 => self.test_row(),
            19 => self.any_reason(),
            _ => self.repeat_call(),
        }
    }
}
