//! What occurred in the inputs that came in pieces, and what must have occurred.

use super::{Input, READ_LIMIT};
use crate::table::{write_table, Row};
use std::fmt;

const LOG: &str = "logs in pieces";
const TEXT: &str = "texts in pieces";

/// What an input can be, and a test of it. The last two are those of logs.
const CASES: [(&str, fn(&Input) -> bool); 8] = [
    ("in all", |_| true),
    ("in one piece", |input| input.cuts.is_empty()),
    ("cut within a line", |input| input.cuts.iter().any(|&cut| !ends_line(&input.bytes[..cut]))),
    ("cut between lines", |input| {
        input.cuts.iter().any(|&cut| cut > 0 && ends_line(&input.bytes[..cut]))
    }),
    ("without last end", |input| !ends_line(&input.bytes)),
    ("longer than a read", |input| input.bytes.len() > READ_LIMIT),
    ("after a kept log", |input| input.kept.as_ref().is_some_and(|kept| ends_line(kept))),
    ("kept without end", |input| input.kept.as_ref().is_some_and(|kept| !ends_line(kept))),
];

/// How many of the cases a text can be.
const OF_TEXTS: usize = CASES.len() - 2;

fn ends_line(bytes: &[u8]) -> bool {
    bytes.last().is_none_or(|&byte| byte == b'\n')
}

/// How often each case occurred, in logs and in texts.
#[derive(Default)]
pub struct Counts {
    logs: [u64; CASES.len()],
    texts: [u64; OF_TEXTS],
}

impl Counts {
    pub fn count_log(&mut self, input: &Input) {
        count(&mut self.logs, input);
    }

    pub fn count_text(&mut self, input: &Input) {
        count(&mut self.texts, input);
    }

    fn rows(&self) -> Vec<Row> {
        let of = |title, counts: &[u64]| {
            let row = |(&(name, _), &count): (&(&str, _), &u64)| Row::new(title, name, count);
            CASES.iter().zip(counts).map(row).collect::<Vec<Row>>()
        };
        [of(LOG, &self.logs), of(TEXT, &self.texts)].into_iter().flatten().collect()
    }

    /// What must occur and did not.
    pub fn missing(&self) -> Vec<String> {
        self.rows().iter().filter(|row| row.count == 0).map(Row::to_string).collect()
    }
}

fn count(counts: &mut [u64], input: &Input) {
    for ((_, is_case), count) in CASES.iter().zip(counts) {
        *count += u64::from(is_case(input));
    }
}

impl fmt::Display for Counts {
    fn fmt(&self, out: &mut fmt::Formatter) -> fmt::Result {
        write_table(&self.rows(), out)
    }
}

#[cfg(test)]
mod tests {
    use super::*;

    #[test]
    fn what_did_not_occur_is_missing() {
        let mut counts = Counts::default();
        assert_eq!(counts.missing().len(), CASES.len() + OF_TEXTS);
        counts.count_text(&Input { kept: None, bytes: b"a\nb".to_vec(), cuts: vec![1, 2] });
        assert_eq!(counts.texts, [1, 0, 1, 1, 1, 0]);
        counts.count_log(&Input { kept: Some(b"a".to_vec()), bytes: vec![], cuts: vec![] });
        assert_eq!(counts.logs, [1, 1, 0, 0, 0, 0, 0, 1]);
    }

    #[test]
    fn with_some_hundred_seeds_all_occur() {
        let mut counts = Counts::default();
        for seed in 1..=300 {
            counts.count_log(&Input::log(seed, 10));
            counts.count_text(&Input::text(seed));
        }
        assert_eq!(counts.missing(), [""; 0]);
    }
}
