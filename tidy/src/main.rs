//! The guard of the sources. It reads the whole repository and prints one line for each fault.

mod declared;
mod edits;
mod fault;
mod imports;
mod rules;
mod source;
mod spans;
mod tree;
mod types;
mod uses;
mod words;

use fault::Fault;
use rules::imports::Traits;
use rules::{dead, dependencies, documents, names, specs, tried};
use source::Source;
use std::fs;
use std::io;
use std::path::Path;
use std::process::ExitCode;
use tree::Tree;

const USAGE: &str = "\
usage: tidy [--named | --names | --fix]

Run at the top of the repository. Prints PATH:LINE: WHAT for each fault and ends with 1 if there is one.

  --named  print crates.txt as it should be: each crate with the crates that it uses
  --names  print the public names that are declared twice, with their places
  --fix    take the names out that a file brings in and does not use
";

fn main() -> ExitCode {
    let options: Vec<String> = std::env::args().skip(1).collect();
    let root = Path::new(".");
    let done = Tree::read(root).and_then(|tree| run(root, &tree, &options));
    done.unwrap_or_else(|error| {
        eprintln!("tidy: {error}");
        ExitCode::from(2)
    })
}

fn run(root: &Path, tree: &Tree, options: &[String]) -> io::Result<ExitCode> {
    if tree.text("crates.txt").is_none() {
        return Err(io::Error::other(
            "crates.txt is not here: run it at the top of the repository",
        ));
    }
    let masked = source::mask(tree);
    let sources = masked.sources();
    let options: Vec<&str> = options.iter().map(String::as_str).collect();
    match options[..] {
        [] => return Ok(report(&faults(tree, &sources))),
        ["--named"] => print!("{}", dependencies::corrected(tree, &sources)),
        ["--names"] => print!("{}", names::list(&sources)),
        ["--fix"] => fix(root, tree, &sources)?,
        _ => {
            eprint!("{USAGE}");
            return Ok(ExitCode::from(2));
        }
    }
    Ok(ExitCode::SUCCESS)
}

fn faults(tree: &Tree, sources: &[Source]) -> Vec<Fault> {
    let edits = edits::edits(tree);
    let spans = spans::spans(tree);
    let mut found = dependencies::faults(tree, sources);
    found.extend(rules::imports::faults(sources, &edits));
    found.extend(dead::faults(sources, &edits, &spans));
    found.extend(specs::faults(sources));
    found.extend(names::faults(sources));
    found.extend(documents::faults(tree, sources, &spans));
    found.extend(tried::faults(tree));
    found.sort();
    found
}

fn report(faults: &[Fault]) -> ExitCode {
    for fault in faults {
        println!("{fault}");
    }
    if faults.is_empty() {
        ExitCode::SUCCESS
    } else {
        eprintln!("tidy: {} faults", faults.len());
        ExitCode::FAILURE
    }
}

fn fix(root: &Path, tree: &Tree, sources: &[Source]) -> io::Result<()> {
    let edits = edits::edits(tree);
    let traits = Traits::of(sources);
    for source in sources {
        let text = tree.text(source.path).unwrap_or(source.text);
        if let Some(fixed) = rules::imports::fixed(source, text, &edits, &traits) {
            fs::write(root.join(source.path), fixed)?;
        }
    }
    Ok(())
}
