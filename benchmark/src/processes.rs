//! Rows in which whole programs run, from their start to their end.

use crate::clock::{best_runs, Times};
use crate::processor::children_time;
use std::fs::{self, File};
use std::path::{Path, PathBuf};
use std::process::{Command, Stdio};
use std::time::Duration;

/// A program with its arguments.
pub struct Program {
    pub path: PathBuf,
    pub arguments: &'static [&'static str],
}

impl Program {
    fn command(&self, input: &Path) -> Command {
        let mut command = Command::new(&self.path);
        command.args(self.arguments).stdin(File::open(input).expect("the input was written"));
        command
    }

    /// What it prints.
    fn printed(&self, input: &Path) -> Vec<u8> {
        let output = self.command(input).stderr(Stdio::inherit()).output();
        output.unwrap_or_else(|error| panic!("{}: {error}", self.path.display())).stdout
    }

    fn time(&self, input: &Path) -> Duration {
        let mut command = self.command(input);
        command.stdout(Stdio::null());
        let begin = children_time();
        let status = command.status().expect("the program ran before");
        let time = children_time() - begin;
        assert!(status.success(), "{}: {status}", self.path.display());
        time
    }
}

/// Times two programs on an input, after their outputs were compared.
pub fn compared(row: &str, input: &[u8], proved: &Program, plain: &Program, runs: usize) -> Times {
    let path = std::env::temp_dir().join(format!("benchmark-{}", std::process::id()));
    fs::write(&path, input).expect("the directory for temporary files can be written to");
    let same = proved.printed(&path) == plain.printed(&path);
    assert!(same, "{row}: the outputs differ");
    let times = best_runs(runs, || proved.time(&path), || plain.time(&path));
    fs::remove_file(&path).expect("the input was written");
    times
}
