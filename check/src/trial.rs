//! Calls of the library with more room than they need, just enough, or too little.

use crate::compare::cut_down;
use crate::library::{refusal, too_short, Library};
use crate::log;
use crate::model::text::{self, Fault};
use std::fmt;

/// How much room a call is lent, by what it needs.
#[derive(Clone, Copy, PartialEq, Eq, PartialOrd, Ord, Debug)]
pub enum Room {
    Ample,
    Exact,
    /// One byte short.
    Short,
    Half,
    Empty,
}

impl Room {
    pub const ALL: [Room; 5] = [Room::Ample, Room::Exact, Room::Short, Room::Half, Room::Empty];

    fn size(self, needed: usize) -> usize {
        match self {
            Room::Ample => 2 * needed + 100,
            Room::Exact => needed,
            Room::Short => needed.saturating_sub(1),
            Room::Half => needed / 2,
            Room::Empty => 0,
        }
    }

    fn is_enough(self) -> bool {
        matches!(self, Room::Ample | Room::Exact)
    }

    fn word(self) -> &'static str {
        ["ample", "exact", "short", "half", "empty"][self as usize]
    }
}

/// A call and the room that it is lent. `Continue` runs the second half of a log on
/// the bench that the first one made; `Why` asks of an edit that the text itself tells.
#[derive(Clone, Copy, PartialEq, Eq, PartialOrd, Ord, Debug)]
pub enum Trial {
    Check,
    Report { out: Room },
    Rewrite { out: Room },
    Why { out: Room },
    Replay { work: Room, out: Room },
    Continue { work: Room, out: Room },
}

/// What became of a trial.
#[derive(Clone, Copy, PartialEq, Eq, PartialOrd, Ord, Debug)]
pub enum Outcome {
    Accepted,
    Refused,
    TooShort,
}

impl Outcome {
    pub fn word(self) -> &'static str {
        ["accepted", "refused", "too short"][self as usize]
    }
}

/// The answers to a trial, and what became of it in the model.
pub struct Answers {
    pub outcome: Outcome,
    pub model: Vec<u8>,
    pub other: Vec<u8>,
}

impl Trial {
    /// What is tried on the log of a seed.
    pub fn of_log(seed: u64) -> Vec<Trial> {
        let [work, out] = rooms(seed);
        let in_rooms = match seed % 2 {
            0 => Trial::Replay { work, out },
            _ => Trial::Continue { work, out },
        };
        vec![Trial::Continue { work: Room::Ample, out: Room::Ample }, in_rooms]
    }

    /// What is tried on the text of a seed.
    pub fn of_text(seed: u64) -> Vec<Trial> {
        let [report, rewrite] = rooms(seed);
        vec![
            Trial::Check,
            Trial::Rewrite { out: Room::Ample },
            Trial::Report { out: report },
            Trial::Rewrite { out: rewrite },
            Trial::Why { out: report },
        ]
    }

    /// Every trial with the outcomes that must occur.
    pub fn all() -> Vec<(Trial, Outcome)> {
        // With these each two rooms have had their turn in both calls on logs.
        let seeds = 0..(2 * Room::ALL.len() * Room::ALL.len()) as u64;
        let mut trials: Vec<Trial> =
            seeds.flat_map(|seed| [Trial::of_log(seed), Trial::of_text(seed)].concat()).collect();
        trials.sort_unstable();
        trials.dedup();
        trials.into_iter().flat_map(Trial::outcomes).collect()
    }

    /// A text that is refused gets its number in whatever room; a log never does.
    fn outcomes(self) -> Vec<(Trial, Outcome)> {
        let enough = self.rooms().into_iter().all(Room::is_enough);
        let fitted = if enough { Outcome::Accepted } else { Outcome::TooShort };
        match self {
            Trial::Replay { .. } | Trial::Continue { .. } => vec![(self, fitted)],
            _ => vec![(self, fitted), (self, Outcome::Refused)],
        }
    }

    fn rooms(self) -> Vec<Room> {
        match self {
            Trial::Check => vec![],
            Trial::Report { out } | Trial::Rewrite { out } | Trial::Why { out } => vec![out],
            Trial::Replay { work, out } | Trial::Continue { work, out } => vec![work, out],
        }
    }

    /// Makes the call, and has the model make it.
    pub fn answers(self, input: &[u8], library: &mut Library) -> Answers {
        let written = self.model(input);
        let needed = written.as_ref().map_or(0, Vec::len);
        let other = self.library(input, needed, library);
        let fits = self.rooms().iter().all(|room| room.size(needed) >= needed);
        let (outcome, model) = match written {
            Ok(written) if fits => (Outcome::Accepted, written),
            Ok(_) => (Outcome::TooShort, too_short()),
            Err(fault) => (Outcome::Refused, refusal(fault.ground.number().into(), fault.line)),
        };
        Answers { outcome, model, other }
    }

    /// What the model writes, whatever the room.
    pub fn model(self, input: &[u8]) -> Result<Vec<u8>, Fault> {
        match self {
            Trial::Check => text::read(input).map(|_| Vec::new()),
            Trial::Report { .. } => {
                let (report, fault) = text::shelf(input);
                fault.map_or(Ok(report), Err)
            }
            Trial::Rewrite { .. } => rewritten(input),
            Trial::Why { .. } => text::why(input, asked(input)),
            Trial::Replay { .. } => Ok(log::run(input)),
            Trial::Continue { .. } => {
                let (kept, log) = halves(input);
                Ok(log::run_after(kept, log))
            }
        }
    }

    fn library(self, input: &[u8], needed: usize, library: &mut Library) -> Vec<u8> {
        match self {
            Trial::Check => library.check(input),
            Trial::Report { out } => library.report(input, out.size(needed)),
            Trial::Rewrite { out } => library.rewrite(input, out.size(needed)),
            Trial::Why { out } => library.why(input, asked(input), out.size(needed)),
            Trial::Replay { work, out } => {
                library.replay_within(input, work.size(needed), out.size(needed))
            }
            Trial::Continue { work, out } => {
                let (kept, log) = halves(input);
                library.go_on_within(kept, log, work.size(needed), out.size(needed))
            }
        }
    }

    /// The log or text cut down to what still shows a difference.
    pub fn cut(self, input: &[u8], library: &mut Library) -> Vec<u8> {
        cut_down(input, |fewer| {
            let answers = self.answers(fewer, library);
            answers.model != answers.other
        })
    }
}

/// The text as the model writes it back, which has to be the same bytes.
fn rewritten(text: &[u8]) -> Result<Vec<u8>, Fault> {
    let mut written = Vec::new();
    text::write_text(&text::read(text)?, &mut written);
    assert!(written == text, "the model does not write back: {}", text.escape_ascii());
    Ok(written)
}

/// The edit that is asked of, by the text's size: one that its lines name, INIT or the
/// last name there is.
fn asked(text: &[u8]) -> u32 {
    let number = |line: &[u8]| {
        let rest = line.strip_prefix(b"edit=")?;
        let digits = rest.iter().take_while(|byte| byte.is_ascii_digit()).count();
        std::str::from_utf8(&rest[..digits]).ok()?.parse().ok()
    };
    let mut numbers: Vec<u32> = text.split(|&byte| byte == b'\n').filter_map(number).collect();
    numbers.extend([0, 2303]);
    numbers[text.len() % numbers.len()]
}

/// The log in two halves. One of even size is parted between two lines, another one
/// at any byte, and then its first half may lack its end.
pub(crate) fn halves(log: &[u8]) -> (&[u8], &[u8]) {
    let half = log.len() / 2;
    if !log.len().is_multiple_of(2) {
        return log.split_at(half);
    }
    let last_end = log[..half].iter().rposition(|&byte| byte == b'\n');
    log.split_at(last_end.map_or(0, |end| end + 1))
}

fn rooms(seed: u64) -> [Room; 2] {
    let count = Room::ALL.len();
    let place = seed as usize;
    [Room::ALL[place % count], Room::ALL[place / count % count]]
}

impl fmt::Display for Trial {
    fn fmt(&self, output: &mut fmt::Formatter) -> fmt::Result {
        match self {
            Trial::Check => write!(output, "check"),
            Trial::Report { out } => write!(output, "report, out {}", out.word()),
            Trial::Rewrite { out } => write!(output, "rewrite, out {}", out.word()),
            Trial::Why { out } => write!(output, "why, out {}", out.word()),
            Trial::Replay { work, out } => {
                write!(output, "replay, work {}, out {}", work.word(), out.word())
            }
            Trial::Continue { work, out } => {
                write!(output, "continue, work {}, out {}", work.word(), out.word())
            }
        }
    }
}

#[cfg(test)]
mod tests {
    use super::*;
    use crate::compare::Other;
    use crate::library::stand_in::{Planted, StandIn};
    use crate::random;

    /// Whether the log or the text of a seed shows a difference.
    fn differs(seed: u64, library: &mut Library) -> bool {
        let (log, text) = (random::log(seed, 30), random::text(seed));
        let mut one_differs = |trials: Vec<Trial>, input: &[u8]| {
            trials.into_iter().any(|trial| {
                let answers = trial.answers(input, library);
                answers.model != answers.other
            })
        };
        one_differs(Trial::of_log(seed), &log)
            || one_differs(Trial::of_text(seed), &text)
            || library.replay(&log) != log::run(&log)
            || library.shelf(&text) != text::shelf(&text).0
    }

    #[test]
    fn the_model_does_not_differ_from_itself() {
        let mut library = Library::new(Box::new(StandIn(Planted::Nothing)));
        assert!((0..100).all(|seed| !differs(seed, &mut library)));
    }

    #[test]
    fn each_planted_fault_is_found() {
        for planted in Planted::FAULTS {
            let mut library = Library::new(Box::new(StandIn(planted)));
            assert!((0..50).any(|seed| differs(seed, &mut library)), "{planted:?}");
        }
    }

    #[test]
    fn a_trial_is_cut_down() {
        let mut library = Library::new(Box::new(StandIn(Planted::WrongLine)));
        let text = b"edit=257 do=insert chip=1\nedit=258 do=insert chip=1\nedit=257\n";
        assert_eq!(Trial::Check.cut(text, &mut library), b"edit=257\n");
    }

    #[test]
    fn rooms_are_measured_by_the_need() {
        assert_eq!(Room::ALL.map(|room| room.size(9)), [118, 9, 8, 4, 0]);
        assert_eq!(Room::ALL.map(|room| room.size(0)), [100, 0, 0, 0, 0]);
    }

    #[test]
    fn each_two_rooms_are_tried() {
        let count = Room::ALL.len();
        assert_eq!(Trial::all().len(), 2 + 3 * 2 * count + 2 * count * count);
    }

    #[test]
    fn a_log_is_parted_between_lines_or_within_one() {
        assert_eq!(halves(b"one\ntwo\n"), (&b"one\n"[..], &b"two\n"[..]));
        assert_eq!(halves(b"ab\ncdef\nghi\n"), (&b"ab\n"[..], &b"cdef\nghi\n"[..]));
        assert_eq!(halves(b"abcdef"), (&b""[..], &b"abcdef"[..]));
        assert_eq!(halves(b"a\nbc\nd\n"), (&b"a\nb"[..], &b"c\nd\n"[..]));
        assert_eq!(halves(b""), (&b""[..], &b""[..]));
    }

    #[test]
    fn the_edit_that_is_asked_of_is_one_of_the_text() {
        assert_eq!([b"".as_slice(), b"\n"].map(asked), [0, 2303]);
        let line = |value| format!("edit=257 do=set chip=1 field=id value={value}\n");
        assert_eq!([1, 10, 100].map(|value| asked(line(value).as_bytes())), [0, 2303, 257]);
    }

    /// Nothing is written, so no room is too short.
    #[test]
    fn an_empty_text_is_written_into_nothing() {
        let mut library = Library::new(Box::new(StandIn(Planted::Nothing)));
        for out in Room::ALL {
            let answers = Trial::Rewrite { out }.answers(b"", &mut library);
            assert_eq!(answers.outcome, Outcome::Accepted);
            assert_eq!(answers.other, b"");
        }
    }
}
