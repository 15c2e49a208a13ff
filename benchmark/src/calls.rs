//! Rows in which functions are called: the proved ones and the baseline's.

use crate::clock::{by_turns, Effort, Times};
use crate::proved::{self, Elected, Explained, Judged, Merged, Scheduled};
use benchmark::plain::{self, Bench};
use benchmark::questions::Question;
use benchmark::shapes::Shape;
use check::library::Reply;
use check::model::{Ground, RollRow, Tables};
use std::hint::black_box;

/// One seat for each bench, of weight 1.
const EQUAL_ROLL: [RollRow; 8] = {
    let mut roll = [RollRow { bench: 1, weight: 1 }; 8];
    let mut place = 0;
    while place < 8 {
        roll[place].bench = place as u8 + 1;
        place += 1;
    }
    roll
};

/// Times two calls, after their answers were compared.
fn compared<Answer: PartialEq + std::fmt::Debug>(
    row: &str,
    effort: Effort,
    proved: impl Fn() -> Answer,
    plain: impl Fn() -> Answer,
) -> Times {
    assert_eq!(proved(), plain(), "{row}: the answers differ");
    let mut proved = |_: &mut Vec<u8>| {
        black_box(proved());
    };
    let mut plain = |_: &mut Vec<u8>| {
        black_box(plain());
    };
    by_turns(0, &mut proved, &mut plain, effort)
}

pub fn judgement(row: &str, shape: &Shape, effort: Effort) -> Times {
    let tables = shape.tables();
    let plain = || plain_judgement(black_box(&tables));
    compared(row, effort, || proved::judgement(black_box(&tables)), plain)
}

fn plain_judgement(tables: &Tables) -> Judged {
    let refused = |ground: Ground| Judged {
        number: ground.number().into(),
        must: [0; 128],
        never: [0; 128],
        settled: [0; 128],
        place: [0; 128],
    };
    plain::judgement(tables).map_or_else(refused, |judgement| Judged {
        number: 0,
        must: judgement.must.map(u8::from),
        never: judgement.never.map(u8::from),
        settled: judgement.settled.map(u8::from),
        place: judgement.place,
    })
}

pub fn schedule(row: &str, shape: &Shape, effort: Effort) -> Times {
    let tables = shape.tables();
    let plain = || match plain::schedule(black_box(&tables)) {
        Ok(schedule) => Scheduled { number: 0, count: schedule.len() - 1 },
        Err(ground) => Scheduled { number: ground.number().into(), count: 0 },
    };
    compared(row, effort, || proved::schedule(black_box(&tables)), plain)
}

pub fn merge(row: &str, shape: &Shape, effort: Effort) -> Times {
    let [first, second] = shape.halves();
    let plain = || plain_merge(black_box(&first), black_box(&second));
    compared(row, effort, || proved::merge(black_box(&first), black_box(&second)), plain)
}

fn plain_merge(first: &Tables, second: &Tables) -> Merged {
    let mut bench = Bench::default();
    // A refused merge leaves the bench as it was.
    let _ = bench.merge(first);
    match bench.merge(second) {
        Ok(pages) => Merged { number: 0, undone: pages.undone, redone: pages.redone },
        Err(ground) => Merged { number: ground.number().into(), undone: 0, redone: 0 },
    }
}

pub fn election(row: &str, shape: &Shape, effort: Effort) -> Times {
    let ballot = shape.ballot();
    let (edit, first, rival) = (ballot.edit, &ballot.first, &ballot.rival);
    let proved = || proved::election(edit, black_box(first), black_box(rival));
    let plain = || plain_election(edit, black_box(first), black_box(rival));
    compared(row, effort, proved, plain)
}

fn plain_election(edit: u32, first: &Tables, rival: &Tables) -> Elected {
    let proposals = [first, first, first, first, rival, rival, rival, rival];
    match plain::election(proposals, &EQUAL_ROLL, edit) {
        Ok(election) => Elected {
            number: 0,
            won: election.outcome.won.into(),
            greatest: election.outcome.greatest,
            silent: election.outcome.silent,
            total: election.outcome.total,
        },
        Err(ground) => {
            let number = ground.number().into();
            Elected { number, won: 0, greatest: 0, silent: 0, total: 0 }
        }
    }
}

pub fn report(row: &str, shape: &Shape, effort: Effort) -> Times {
    let text = shape.text();
    let proved = |out: &mut [u8]| proved::catalogue_report(black_box(&text), out);
    compared_outputs(row, effort, proved, |out| plain::shelf(black_box(&text), out))
}

pub fn reason(row: &str, question: &Question, effort: Effort) -> Times {
    let tables = question.tables();
    let edit = question.edit.into();
    let proved = |out: &mut [u8]| {
        let Explained { number, size } = proved::reason(edit, black_box(&tables), out);
        Reply { number, line: 0, size }
    };
    let plain = |out: &mut Vec<u8>| {
        plain::explain(black_box(&tables), edit, out).expect("each question has an answer");
    };
    compared_outputs(row, effort, proved, plain)
}

pub fn replay(row: &str, log: &[u8], effort: Effort) -> Times {
    let mut work = Vec::new();
    let proved = |out: &mut [u8]| {
        work.resize(out.len(), 0);
        proved::catalogue_replay(black_box(log), &mut work, out)
    };
    compared_outputs(row, effort, proved, |out| plain::replay(black_box(log), out))
}

/// Times two calls that print, after what they print was compared.
fn compared_outputs(
    row: &str,
    effort: Effort,
    mut proved: impl FnMut(&mut [u8]) -> Reply,
    plain: impl Fn(&mut Vec<u8>),
) -> Times {
    let mut expected = Vec::new();
    plain(&mut expected);
    let size = expected.len();
    let mut output = vec![0; size];
    let reply = proved(&mut output);
    assert_eq!(reply, Reply { number: 0, line: 0, size }, "{row}: the answers differ");
    assert!(output == expected, "{row}: the outputs differ");
    let mut proved = |out: &mut Vec<u8>| {
        black_box(proved(out));
    };
    let mut plain = |out: &mut Vec<u8>| {
        out.clear();
        plain(out);
    };
    by_turns(size, &mut proved, &mut plain, effort)
}
