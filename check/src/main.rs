//! Compares another implementation of document 01 with the model of this package
//! on random call logs and texts, runs random histories of elections on it, and
//! compares it on tables of election answers.

use check::compare::{
    compare_log, compare_text, cut_down, cut_log, cut_text, difference, Difference, Model, Other,
    Programs,
};
use check::coverage::{Coverage, Parts};
use check::library::{self, Library};
use check::mergeability::{self, Counts, Finding, Voters};
use check::pipes::{self, Input, Piped};
use check::trial::Trial;
use check::{log, model, random, unity};
use std::fmt::Display;
use std::io::{Read, Write};
use std::path::PathBuf;
use std::process::ExitCode;

const USAGE: &str = "\
usage: check [--seed N] [--logs N] [--calls N] [--replay PATH] [--shelf PATH]
       check [--seed N] [--logs N] [--calls N] --library
       check [--seed N] [--logs N] [--calls N] --pipes --replay PATH --shelf PATH
       check [--seed N] [--logs N] --mergeability [--not-kept] [--library]
       check [--seed N] [--logs N] --mergeability [--not-kept] --replay PATH --shelf PATH
       check [--seed N] [--logs N] --tables [--library] [--unity PATH]
       check [--seed N] [--calls N] --dump
       check [--seed N] --dump-text | --dump-table
       check --answer | --answer-text | --answer-table

  --seed N       the first seed (1)
  --logs N       how many logs and texts, one of each to a seed (1000; 300 of --pipes),
                 histories (500) or tables (2000)
  --calls N      about how many lines a log has (300)
  --replay PATH  a program to compare on logs
  --shelf PATH   a program to compare on texts
  --library      compare the library that this was built with
  --pipes        compare the programs on input that comes in pieces, and on logs after
                 a kept one
  --mergeability run histories of proposals and elections: all that is won has to
                 form one sound record
  --not-kept     with a planted fault, a voter that does not keep its old proposal:
                 ends with 0 if a history is found that fails, with 1 if none is
  --tables       compare on tables of election answers
  --unity PATH   a program to compare on the texts of such tables
  --dump         print the log of the seed
  --dump-text    print the text of the seed
  --dump-table   print the text of the seed's table
  --answer       print the model's answers to a log on standard input
  --answer-text  print the model's report on a text on standard input
  --answer-table print the model's answer to the text of a table on standard input

Without a program or the library only the model runs, and what occurred is counted.
";

/// How many logs and texts, histories and tables, if it is not said. Of those in pieces
/// each log and text is a process, which pauses between its pieces.
const LOGS: u64 = 1000;
const PIPED: u64 = 300;
const HISTORIES: u64 = 500;
const TABLES: u64 = 2000;

#[derive(Clone, Copy, PartialEq, Eq)]
enum Task {
    Compare,
    Pipes,
    Mergeability,
    Tables,
    Dump,
    DumpText,
    DumpTable,
    Answer,
    AnswerText,
    AnswerTable,
}

struct Options {
    seed: u64,
    logs: Option<u64>,
    calls: usize,
    replay: Option<PathBuf>,
    shelf: Option<PathBuf>,
    unity: Option<PathBuf>,
    library: bool,
    voters: Voters,
    task: Task,
}

impl Options {
    fn read(mut words: impl Iterator<Item = String>) -> Option<Options> {
        let mut options = Options {
            seed: 1,
            logs: None,
            calls: 300,
            replay: None,
            shelf: None,
            unity: None,
            library: false,
            voters: Voters::Keep,
            task: Task::Compare,
        };
        while let Some(word) = words.next() {
            match word.as_str() {
                "--seed" => options.seed = words.next()?.parse().ok()?,
                "--logs" => options.logs = Some(words.next()?.parse().ok()?),
                "--calls" => options.calls = words.next()?.parse().ok()?,
                "--replay" => options.replay = Some(words.next()?.into()),
                "--shelf" => options.shelf = Some(words.next()?.into()),
                "--unity" => options.unity = Some(words.next()?.into()),
                "--library" => options.library = true,
                "--pipes" => options.task = Task::Pipes,
                "--mergeability" => options.task = Task::Mergeability,
                "--not-kept" => options.voters = Voters::OneDoesNotKeep,
                "--tables" => options.task = Task::Tables,
                "--dump" => options.task = Task::Dump,
                "--dump-text" => options.task = Task::DumpText,
                "--dump-table" => options.task = Task::DumpTable,
                "--answer" => options.task = Task::Answer,
                "--answer-text" => options.task = Task::AnswerText,
                "--answer-table" => options.task = Task::AnswerTable,
                _ => return None,
            }
        }
        options.fit_together().then_some(options)
    }

    /// On logs and texts the library goes without programs, pieces go with both of
    /// them, and histories with both or none. Tables have a program of their own,
    /// which goes with the library.
    fn fit_together(&self) -> bool {
        let programs = [&self.replay, &self.shelf].into_iter().flatten().count();
        match self.task {
            _ if self.library && programs > 0 => false,
            _ if self.unity.is_some() && self.task != Task::Tables => false,
            Task::Mergeability => programs != 1,
            Task::Pipes => programs == 2 && self.voters == Voters::Keep,
            Task::Tables => programs == 0 && self.voters == Voters::Keep,
            _ => self.voters == Voters::Keep,
        }
    }

    /// So many seeds if it is not said how many.
    fn seeds(&self, count: u64) -> impl Iterator<Item = u64> {
        (self.seed..).take(self.logs.unwrap_or(count) as usize)
    }
}

fn main() -> ExitCode {
    let Some(options) = Options::read(std::env::args().skip(1)) else {
        eprint!("{USAGE}");
        return ExitCode::from(2);
    };
    match options.task {
        Task::Compare if options.library => compare_library(&options),
        Task::Compare => compare(&options),
        Task::Pipes => compare_pipes(&options),
        Task::Mergeability => run_histories(&options),
        Task::Tables => compare_tables(&options),
        Task::Dump => print(&random::log(options.seed, options.calls)),
        Task::DumpText => print(&random::text(options.seed)),
        Task::DumpTable => print(&unity::text(options.seed)),
        Task::Answer => print(&log::run(&standard_input())),
        Task::AnswerText => print(&model::text::shelf(&standard_input()).0),
        Task::AnswerTable => print(&unity::answer(&standard_input())),
    }
}

fn standard_input() -> Vec<u8> {
    let mut input = Vec::new();
    std::io::stdin().read_to_end(&mut input).expect("standard input can be read");
    input
}

fn print(bytes: &[u8]) -> ExitCode {
    match std::io::stdout().write_all(bytes) {
        Ok(()) => ExitCode::SUCCESS,
        Err(_) => ExitCode::FAILURE,
    }
}

/// The programs, or the model if none is given.
fn programs(options: &Options) -> Box<dyn Other> {
    match (options.replay.clone(), options.shelf.clone()) {
        (None, None) => Box::new(Model),
        (replay, shelf) => Box::new(Programs {
            replay: replay.unwrap_or_default(),
            shelf: shelf.unwrap_or_default(),
        }),
    }
}

/// What is linked of the library. If nothing is, it says so.
fn linked<Functions>(functions: Option<Functions>) -> Option<Functions> {
    if functions.is_none() {
        eprintln!("this was built without the library: build it with --features library");
    }
    functions
}

fn linked_library() -> Option<Library> {
    linked(library::archive()).map(Library::new)
}

fn compare(options: &Options) -> ExitCode {
    let logs = options.replay.is_some() || options.shelf.is_none();
    let texts = options.shelf.is_some() || options.replay.is_none();
    let mut other = programs(options);
    compare_seeds(options, Parts { logs, texts, rooms: false }, |seed, coverage| {
        (!logs || same_log(seed, &random::log(seed, options.calls), &mut *other, coverage))
            && (!texts || same_text(seed, &random::text(seed), &mut *other, coverage))
    })
}

fn compare_library(options: &Options) -> ExitCode {
    let Some(mut library) = linked_library() else { return ExitCode::from(2) };
    compare_seeds(options, Parts { logs: true, texts: true, rooms: true }, |seed, coverage| {
        let (log, text) = (random::log(seed, options.calls), random::text(seed));
        let library = &mut library;
        same_log(seed, &log, library, coverage)
            && same_text(seed, &text, library, coverage)
            && same_trials(&log_of(seed), &log, Trial::of_log(seed), library, coverage)
            && same_trials(&text_of(seed), &text, Trial::of_text(seed), library, coverage)
    })
}

/// Compares the programs on the log and the text of each seed in pieces, until there
/// is a difference.
fn compare_pipes(options: &Options) -> ExitCode {
    let mut programs = Programs {
        replay: options.replay.clone().unwrap_or_default(),
        shelf: options.shelf.clone().unwrap_or_default(),
    };
    let mut counts = pipes::Counts::default();
    let is_same = |seed: u64| {
        let (log, text) = (Input::log(seed, options.calls), Input::text(seed));
        counts.count_log(&log);
        counts.count_text(&text);
        let answers = Piped::replay(&mut programs, log.kept.as_deref(), &log.pieces());
        let report = Piped::shelf(&mut programs, &text.pieces());
        same_pieces(&log_of(seed), &log, &log.answers(), &answers)
            && same_pieces(&text_of(seed), &text, &text.report(), &report)
    };
    match options.seeds(PIPED).all(is_same) {
        true => show_counts(&counts, counts.missing()),
        false => ExitCode::FAILURE,
    }
}

/// What is the case of a difference is told: where it is cut, and what was kept.
fn same_pieces(what: &str, input: &Input, model: &[u8], other: &[u8]) -> bool {
    let difference = difference(model, other);
    if let Some(difference) = &difference {
        show(&format!("{what}, cut after {:?} bytes", input.cuts), difference);
        show_lines("the kept log", input.kept.as_deref().unwrap_or_default());
        show_lines("the input", &input.bytes);
    }
    difference.is_none()
}

/// Asks of each seed whether all is the same, until one says no.
fn compare_seeds(
    options: &Options,
    parts: Parts,
    mut is_same: impl FnMut(u64, &mut Coverage) -> bool,
) -> ExitCode {
    let mut coverage = Coverage::default();
    if !options.seeds(LOGS).all(|seed| is_same(seed, &mut coverage)) {
        return ExitCode::FAILURE;
    }
    show_counts(&coverage, coverage.missing(parts))
}

/// Prints what occurred and what is missing, and fails if anything is.
fn show_counts(counts: &impl Display, missing: Vec<String>) -> ExitCode {
    let lines = missing.iter().map(|line| format!("did not occur: {line}\n"));
    let printed = print(format!("{counts}{}", lines.collect::<String>()).as_bytes());
    match missing.is_empty() {
        true => printed,
        false => ExitCode::FAILURE,
    }
}

/// Runs the history of each seed until one fails. With the planted fault histories
/// have to fail: then the first is shown, and only what the fault is no reason for
/// ends the run.
fn run_histories(options: &Options) -> ExitCode {
    let other = match options.library {
        true => linked_library().map(|library| Box::new(library) as Box<dyn Other>),
        false => Some(programs(options)),
    };
    let Some(mut other) = other else { return ExitCode::from(2) };
    let mut counts = Counts::default();
    for seed in options.seeds(HISTORIES) {
        let is_first = counts.failing() == 0;
        let findings = mergeability::run(seed, options.voters, &mut *other, &mut counts);
        let is_expected = findings.iter().all(|finding| finding.is_expected(options.voters));
        if !findings.is_empty() && (is_first || !is_expected) {
            let title = if is_expected { "the planted fault shows" } else { "a finding" };
            println!("{title}: history of seed {seed}");
            findings.iter().for_each(show_finding);
        }
        if !is_expected {
            return ExitCode::FAILURE;
        }
    }
    show_counts(&counts, counts.missing(options.voters))
}

fn show_finding(finding: &Finding) {
    println!("{}: {}", finding.demand.words(), finding.what);
    finding.texts.iter().for_each(|(title, text)| show_lines(title, text));
}

/// Compares the function on the table of each seed and the program on its text,
/// until there is a difference.
fn compare_tables(options: &Options) -> ExitCode {
    let function = if options.library { linked(unity::archive()) } else { None };
    if options.library && function.is_none() {
        return ExitCode::from(2);
    }
    let function = function.map(unity::by_function);
    let program = options.unity.clone().map(unity::by_program);
    let mut counts = unity::Counts::default();
    let is_same = |seed: u64| {
        let (table, text) = (unity::written(&unity::table(seed)), unity::text(seed));
        counts.count_table(&table);
        counts.count_text(&text);
        same_table(&format!("table of seed {seed}"), &table, &function)
            && same_table(&format!("text of the table of seed {seed}"), &text, &program)
    };
    match options.seeds(TABLES).all(is_same) {
        true => show_counts(&counts, counts.missing()),
        false => ExitCode::FAILURE,
    }
}

/// Where there is no other, nothing differs.
fn same_table(what: &str, table: &[u8], other: &Option<unity::Other>) -> bool {
    let Some(other) = other else { return true };
    let difference = difference(&unity::answer(table), &other(table));
    if let Some(difference) = &difference {
        show(what, difference);
        let cut = cut_down(table, |fewer| unity::answer(fewer) != other(fewer));
        show_cut(&cut, &unity::answer(&cut), &other(&cut));
    }
    difference.is_none()
}

fn same_log(seed: u64, log: &[u8], other: &mut dyn Other, coverage: &mut Coverage) -> bool {
    let difference = compare_log(log, &other.replay(log), coverage);
    if let Some(difference) = &difference {
        show(&log_of(seed), difference);
        let cut = cut_log(log, other);
        show_cut(&cut, &log::run(&cut), &other.replay(&cut));
    }
    difference.is_none()
}

fn same_text(seed: u64, text: &[u8], other: &mut dyn Other, coverage: &mut Coverage) -> bool {
    let difference = compare_text(text, &other.shelf(text), coverage);
    if let Some(difference) = &difference {
        show(&text_of(seed), difference);
        let cut = cut_text(text, other);
        show_cut(&cut, &model::text::shelf(&cut).0, &other.shelf(&cut));
    }
    difference.is_none()
}

fn same_trials(
    what: &str,
    input: &[u8],
    trials: Vec<Trial>,
    library: &mut Library,
    coverage: &mut Coverage,
) -> bool {
    trials.into_iter().all(|trial| {
        let answers = trial.answers(input, library);
        coverage.count_trial(trial, answers.outcome);
        let difference = difference(&answers.model, &answers.other);
        if let Some(difference) = &difference {
            show(&format!("{what}, {trial}"), difference);
            let cut = trial.cut(input, library);
            let answers = trial.answers(&cut, library);
            show_cut(&cut, &answers.model, &answers.other);
        }
        difference.is_none()
    })
}

fn log_of(seed: u64) -> String {
    format!("log of seed {seed}")
}

fn text_of(seed: u64) -> String {
    format!("text of seed {seed}")
}

fn show(what: &str, difference: &Difference) {
    println!("a difference: {what}, line {}", difference.line);
    show_lines("the model's answer", &difference.model);
    show_lines("the other's answer", &difference.other);
}

fn show_cut(cut: &[u8], model: &[u8], other: &[u8]) {
    show_lines("cut down", cut);
    show_lines("the model's answers to that", model);
    show_lines("the other's answers to that", other);
}

/// Bytes that don't print are escaped, ends of lines too: they are in question.
fn show_lines(title: &str, bytes: &[u8]) {
    println!("{title}:");
    for line in bytes.split_inclusive(|&byte| byte == b'\n') {
        println!("    {}", line.escape_ascii());
    }
}

#[cfg(test)]
mod tests {
    use super::*;

    fn options(words: &str) -> Option<Options> {
        Options::read(words.split_whitespace().map(str::to_string))
    }

    fn task(words: &str) -> Option<Task> {
        options(words).map(|options| options.task)
    }

    #[test]
    fn the_library_is_compared_without_programs() {
        assert!(options("--library --seed 7 --logs 2").is_some_and(|options| options.library));
        assert!(task("--library --replay path").is_none());
        assert!(task("--shelf path --library").is_none());
        assert!(task("--shelf path") == Some(Task::Compare));
    }

    #[test]
    fn pieces_need_both_programs() {
        assert!(task("--pipes --replay path --shelf path") == Some(Task::Pipes));
        assert!(task("--pipes --replay path").is_none());
        assert!(task("--pipes").is_none());
        assert!(task("--pipes --library").is_none());
    }

    #[test]
    fn histories_need_both_programs_or_none() {
        assert!(task("--mergeability") == Some(Task::Mergeability));
        assert!(task("--library --mergeability --not-kept") == Some(Task::Mergeability));
        assert!(task("--mergeability --replay path --shelf path").is_some());
        assert!(task("--mergeability --replay path").is_none());
        assert!(task("--mergeability --replay path --shelf path --library").is_none());
        assert!(task("--library --not-kept").is_none());
    }

    #[test]
    fn tables_go_with_the_library_and_a_program_of_their_own() {
        assert!(task("--tables") == Some(Task::Tables));
        assert!(task("--tables --library --unity path") == Some(Task::Tables));
        assert!(task("--unity path").is_none());
        assert!(task("--mergeability --unity path").is_none());
        assert!(task("--tables --replay path").is_none());
        assert!(task("--tables --not-kept").is_none());
    }

    #[test]
    fn it_may_be_said_how_many_seeds() {
        let seeds = |words| options(words).unwrap().seeds(HISTORIES).collect::<Vec<u64>>();
        assert_eq!(seeds("--mergeability").len(), 500);
        assert_eq!(seeds("--mergeability --logs 2 --seed 7"), [7, 8]);
    }
}
