//! Measures the proved code against plain Rust and prints a table.

mod baseline;
mod calls;
mod clock;
mod processes;
mod processor;
mod proved;

use benchmark::logs;
use benchmark::questions::{questions, Question};
use benchmark::shapes::{shapes, Shape};
use clock::{Effort, Times};
use processes::Program;
use std::path::{Path, PathBuf};
use std::process::ExitCode;

const USAGE: &str = "\
usage: benchmark [--short] [--row NAME] [--shelf PATH] [--replay PATH]
       benchmark --plain-shelf | --plain-replay

  --short        a quick run with rough figures
  --row NAME     only the rows whose name has this in it
  --shelf PATH   the proved program (../target/bin/shelf)
  --replay PATH  the proved program (../target/bin/replay)
  --plain-shelf, --plain-replay  be the baseline's program instead
";

/// The first word that makes this the baseline's program.
const PLAIN_SHELF: &str = "--plain-shelf";
const PLAIN_REPLAY: &str = "--plain-replay";

/// How many lines and rounds the logs of cheap lines and of questions have.
const TURN_LINES: usize = 6_000;
const HIDING_LINES: usize = 1_200;
const QUESTION_ROUNDS: usize = 20;
/// A log for a process that runs long.
const LONG_LOG_SIZE: usize = 10_000_000;

struct Options {
    effort: Effort,
    row: String,
    shelf: PathBuf,
    replay: PathBuf,
}

impl Options {
    fn read(mut words: impl Iterator<Item = String>) -> Option<Options> {
        let programs = PathBuf::from(env!("CARGO_MANIFEST_DIR")).join("../target/bin");
        let mut options = Options {
            effort: Effort::LONG,
            row: String::new(),
            shelf: programs.join("shelf"),
            replay: programs.join("replay"),
        };
        while let Some(word) = words.next() {
            match word.as_str() {
                "--short" => options.effort = Effort::SHORT,
                "--row" => options.row = words.next()?,
                "--shelf" => options.shelf = words.next()?.into(),
                "--replay" => options.replay = words.next()?.into(),
                _ => return None,
            }
        }
        Some(options)
    }
}

fn main() -> ExitCode {
    // Processes of the baseline are this program too.
    match std::env::args().nth(1).as_deref() {
        Some(PLAIN_SHELF) => return ended(baseline::run_shelf()),
        Some(PLAIN_REPLAY) => return ended(baseline::run_replay()),
        _ => {}
    }
    match Options::read(std::env::args().skip(1)) {
        Some(options) => {
            measure(&options);
            ExitCode::SUCCESS
        }
        None => {
            eprint!("{USAGE}");
            ExitCode::from(2)
        }
    }
}

fn ended(done: std::io::Result<()>) -> ExitCode {
    match done {
        Ok(()) => ExitCode::SUCCESS,
        Err(error) => {
            eprintln!("{error}");
            ExitCode::FAILURE
        }
    }
}

fn measure(options: &Options) {
    let shapes = shapes();
    print_table("At the limits", options, |table| {
        measure_calls(&shapes, table, options.effort);
        measure_reasons(&questions(), table, options.effort);
        measure_logs(&builds(&shapes), table, options.effort);
        measure_shelves(&shapes, table, options);
        measure_replays(&builds(&shapes), table, options);
    });
    print_table("Other logs", options, |table| {
        let logs = other_logs(&shapes);
        measure_logs(&logs, table, options.effort);
        measure_replays(&logs, table, options);
        measure_long_replay(table, options);
    });
}

fn print_table(title: &str, options: &Options, fill: impl FnOnce(&mut Table)) {
    println!("{title}\n\n| Row | Rattle µs | Rust µs | Ratio |\n|---|---:|---:|---:|");
    let mut table = Table { row: &options.row, greatest: None };
    fill(&mut table);
    match table.greatest {
        Some((row, ratio)) => println!("\nGreatest ratio: {ratio:.2} ({row})\n"),
        None => println!("\nNo such row.\n"),
    }
}

/// Prints rows as they are measured.
struct Table<'options> {
    /// What the name of a row has in it.
    row: &'options str,
    greatest: Option<(String, f64)>,
}

impl Table<'_> {
    fn measure(&mut self, row: &str, times: impl FnOnce() -> Times) {
        if !row.contains(self.row) {
            return;
        }
        let times = times();
        let ratio = times.ratio();
        let micros = |time: std::time::Duration| time.as_secs_f64() * 1e6;
        println!(
            "| {row} | {:.1} | {:.1} | {ratio:.2} |",
            micros(times.proved),
            micros(times.plain)
        );
        if self.greatest.as_ref().is_none_or(|(_, greatest)| *greatest < ratio) {
            self.greatest = Some((row.to_string(), ratio));
        }
    }
}

/// Single calls on each shape.
fn measure_calls(shapes: &[Shape], table: &mut Table, effort: Effort) {
    type Measure = fn(&str, &Shape, Effort) -> Times;
    let operations: [(&str, Measure); 5] = [
        ("judgement", calls::judgement),
        ("schedule", calls::schedule),
        ("merge", calls::merge),
        ("election", calls::election),
        ("report", calls::report),
    ];
    for (operation, measure) in operations {
        for shape in shapes {
            let row = format!("{operation}, {}", shape.name);
            table.measure(&row, || measure(&row, shape, effort));
        }
    }
}

/// Why an edit must stand, or can never stand.
fn measure_reasons(questions: &[Question], table: &mut Table, effort: Effort) {
    for question in questions {
        let row = format!("why, {}", question.name);
        table.measure(&row, || calls::reason(&row, question, effort));
    }
}

/// Logs by name.
type Logs = Vec<(String, Vec<u8>)>;

/// A bench at the limits, made line by line.
fn builds(shapes: &[Shape]) -> Logs {
    let build =
        |shape: &Shape| (format!("replay, build {}", shape.name), logs::build(&shape.record));
    shapes.iter().map(build).collect()
}

/// Lines that change little on a full bench, and lines with small records.
fn other_logs(shapes: &[Shape]) -> Logs {
    let mut logs = Vec::new();
    for shape in [&shapes[0], &shapes[1]] {
        let name = shape.name;
        logs.push((format!("replay, turns {name}"), logs::turns(shape, TURN_LINES)));
        logs.push((format!("replay, hidings {name}"), logs::hidings(shape, HIDING_LINES)));
        logs.push((format!("replay, questions {name}"), logs::questions(shape, QUESTION_ROUNDS)));
    }
    logs.push(("replay, why".to_string(), logs::reasons(&questions())));
    logs.push(("replay, mix".to_string(), logs::mix()));
    logs
}

fn measure_logs(logs: &Logs, table: &mut Table, effort: Effort) {
    for (row, log) in logs {
        table.measure(row, || calls::replay(row, log, effort));
    }
}

/// The proved program and the baseline's, which is this one.
fn programs(proved: &Path, plain: &'static [&'static str]) -> (Program, Program) {
    let path = std::env::current_exe().expect("this program has a path");
    let proved = Program { path: proved.to_path_buf(), arguments: &[] };
    (proved, Program { path, arguments: plain })
}

fn measure_shelves(shapes: &[Shape], table: &mut Table, options: &Options) {
    let (proved, plain) = programs(&options.shelf, &[PLAIN_SHELF]);
    for shape in shapes {
        let row = format!("process shelf, {}", shape.name);
        let text = shape.text();
        table.measure(&row, || {
            processes::compared(&row, &text, &proved, &plain, options.effort.runs)
        });
    }
}

fn measure_replays(logs: &Logs, table: &mut Table, options: &Options) {
    let (proved, plain) = programs(&options.replay, &[PLAIN_REPLAY]);
    for (name, log) in logs {
        let row = format!("process {name}");
        table
            .measure(&row, || processes::compared(&row, log, &proved, &plain, options.effort.runs));
    }
}

fn measure_long_replay(table: &mut Table, options: &Options) {
    let (proved, plain) = programs(&options.replay, &[PLAIN_REPLAY]);
    let row = "process replay, mix of 10 MB";
    table.measure(row, || {
        let log = logs::repeated(&logs::mix(), LONG_LOG_SIZE);
        processes::compared(row, &log, &proved, &plain, options.effort.long_runs)
    });
}
