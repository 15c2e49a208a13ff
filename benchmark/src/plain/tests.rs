//! The baseline against the model of `check`, byte by byte.

use super::{replay, shelf};
use crate::logs;
use crate::questions::questions;
use check::compare::{cut_log, cut_text, Other};
use check::{log, model, random};

struct Plain;

impl Other for Plain {
    fn replay(&mut self, log: &[u8]) -> Vec<u8> {
        let mut out = Vec::new();
        replay(log, &mut out);
        out
    }

    fn shelf(&mut self, text: &[u8]) -> Vec<u8> {
        let mut out = Vec::new();
        shelf(text, &mut out);
        out
    }
}

#[test]
fn logs_have_the_same_answers() {
    for seed in 0..400 {
        let log = random::log(seed, 300);
        if log::run(&log) != Plain.replay(&log) {
            let cut = cut_log(&log, &mut Plain);
            panic!("seed {seed}: {}", cut.escape_ascii());
        }
    }
}

#[test]
fn reasons_at_the_limits_are_the_same() {
    let log = logs::reasons(&questions());
    assert!(log::run(&log) == Plain.replay(&log));
}

#[test]
fn texts_have_the_same_reports() {
    for seed in 0..4000 {
        let text = random::text(seed);
        if model::text::shelf(&text).0 != Plain.shelf(&text) {
            let cut = cut_text(&text, &mut Plain);
            panic!("seed {seed}: {}", cut.escape_ascii());
        }
    }
}
