//! What occurred in the tables and texts, and what must have occurred.

use super::outcomes::{Case, Outcome, OF_BOTH, OF_TEXTS};
use crate::table::{write_table, Row};
use std::collections::BTreeMap;
use std::fmt;

const TABLES: &str = "tables";
const TEXTS: &str = "texts";

/// How often each thing occurred, by title and name.
#[derive(Default)]
pub struct Counts {
    counts: BTreeMap<(&'static str, &'static str), u64>,
}

impl Counts {
    /// A table, as text.
    pub fn count_table(&mut self, table: &[u8]) {
        self.count(TABLES, table);
    }

    pub fn count_text(&mut self, text: &[u8]) {
        self.count(TEXTS, text);
    }

    fn count(&mut self, title: &'static str, text: &[u8]) {
        let case = Case::new(text);
        for (name, _) in outcomes(title).filter(|(_, holds)| holds(&case)) {
            *self.counts.entry((title, name)).or_default() += 1;
        }
    }

    /// What must occur and did not.
    pub fn missing(&self) -> Vec<String> {
        self.rows().iter().filter(|row| row.count == 0).map(Row::to_string).collect()
    }

    fn rows(&self) -> Vec<Row> {
        let count = |title, name| self.counts.get(&(title, name)).copied().unwrap_or(0);
        let row = |title, name| Row::new(title, name, count(title, name));
        let rows = |title| outcomes(title).map(move |(name, _)| row(title, name));
        [TABLES, TEXTS].into_iter().flat_map(rows).collect()
    }
}

impl fmt::Display for Counts {
    fn fmt(&self, out: &mut fmt::Formatter) -> fmt::Result {
        write_table(&self.rows(), out)
    }
}

/// All that must occur below a title.
fn outcomes(title: &str) -> impl Iterator<Item = Outcome> {
    let more = if title == TEXTS { &OF_TEXTS[..] } else { &[] };
    OF_BOTH.iter().chain(more).copied()
}
