//! One name has one meaning: no two files declare it for others, nor one file twice.

use crate::declared::{Declaration, Kind};
use crate::fault::Fault;
use crate::source::Source;
use std::collections::{BTreeMap, BTreeSet};
use std::fmt::Write;

#[derive(Clone, Copy, PartialEq, Eq, PartialOrd, Ord)]
enum Sort {
    /// Definitions, their constructors, and laws.
    Theory,
    /// Of the code. Its crate stands before its name, so that it may be declared in several.
    Code,
}

struct Place<'a> {
    crate_name: &'a str,
    path: &'a str,
    line: usize,
}

/// The public names that are declared twice, with their places; of the code those that several crates declare.
fn shared<'a>(sources: &'a [Source]) -> BTreeMap<(Sort, &'a str), Vec<Place<'a>>> {
    let mut places: BTreeMap<(Sort, &str), Vec<Place>> = BTreeMap::new();
    for source in sources.iter().filter(|source| !source.proves_function) {
        for declared in
            source.declarations.iter().filter(|declared| is_for_others(source, declared))
        {
            let place = Place {
                crate_name: source.crate_name,
                path: source.path,
                line: source.line(declared.range.start),
            };
            places.entry((sort(source), declared.name)).or_default().push(place);
        }
    }
    let crates = |places: &[Place]| {
        places.iter().map(|place| place.crate_name).collect::<BTreeSet<_>>().len()
    };
    places.retain(|(sort, _), places| match sort {
        Sort::Theory => places.len() > 1,
        Sort::Code => crates(places) > 1,
    });
    places
}

/// Whether other files may name it: it is public, or a constructor of what is.
fn is_for_others(source: &Source, declared: &Declaration) -> bool {
    let holds = |data: &Declaration| {
        data.kind == Kind::Data && data.public && data.range.contains(&declared.range.start)
    };
    match declared.kind {
        Kind::Part => source.declarations.iter().any(holds),
        Kind::Member => false,
        _ => declared.public,
    }
}

fn sort(source: &Source) -> Sort {
    match source.folder() {
        "specs" | "proofs" => Sort::Theory,
        _ => Sort::Code,
    }
}

pub fn faults(sources: &[Source]) -> Vec<Fault> {
    let mut found = Vec::new();
    for ((sort, name), places) in shared(sources) {
        if sort == Sort::Code {
            continue;
        }
        for (at, place) in places.iter().enumerate() {
            let others = places.iter().enumerate().filter(|(other, _)| *other != at);
            let others: Vec<String> =
                others.map(|(_, other)| format!("{}:{}", other.path, other.line)).collect();
            let what = format!("{name} is declared in {} too", others.join(", "));
            found.push(Fault::new(place.path, place.line, what));
        }
    }
    found
}

/// The shared names by sort, one to a line with its places.
pub fn list(sources: &[Source]) -> String {
    let mut told = String::new();
    let mut last = None;
    for ((sort, name), places) in shared(sources) {
        if last.replace(sort) != Some(sort) {
            let title = match sort {
                Sort::Theory => "definitions and laws",
                Sort::Code => "code",
            };
            let _ = writeln!(told, "# {title}");
        }
        let places: Vec<String> =
            places.iter().map(|place| format!("{}:{}", place.path, place.line)).collect();
        let _ = writeln!(told, "{name} {}", places.join(" "));
    }
    told
}

#[cfg(test)]
mod tests {
    use super::*;
    use crate::source::mask;
    use crate::tree::Tree;

    fn whats(files: &[(&str, &str)]) -> Vec<String> {
        let masked = mask(&Tree::of(files));
        faults(&masked.sources()).iter().map(Fault::to_string).collect()
    }

    const SPEC: (&str, &str) = ("crates/a/specs/A.antt", "pub f : A\nf = 1\n");

    #[test]
    fn declared_twice() {
        let others = [
            ("crates/b/specs/B.antt", "\nunfoldable pub f : A\nf = 2\n"),
            ("crates/b/proofs/B.antt", "\npub f : A\nf = 2\n"),
            ("crates/a/proofs/B.antt", "\npub f : A\nf = 2\n"),
            ("crates/b/specs/B.antt", "pub data D : Type 0 where\n  f : D\n"),
        ];
        for other in others {
            let first = format!("crates/a/specs/A.antt:1: f is declared in {}:2 too", other.0);
            let second = format!("{}:2: f is declared in crates/a/specs/A.antt:1 too", other.0);
            assert_eq!(
                whats(&[SPEC, other]).into_iter().collect::<BTreeSet<_>>(),
                [first, second].into()
            );
        }
    }

    #[test]
    fn parts_and_names_of_code_may_be_alike() {
        let others = [
            ("crates/b/specs/B.antt", "pub record D : Type 0 where\n  pub f : A\n"),
            ("crates/b/specs/B.antt", "f : A\nf = 2\n"),
            ("crates/b/proofs/g/Answers.antt", "pub f : A\nf = 2\n"),
            ("crates/b/src/lib.rt", "pub fn f() {\n}\n"),
        ];
        for other in others {
            assert!(whats(&[SPEC, other]).is_empty());
        }
    }

    #[test]
    fn listed_by_sort() {
        let masked = mask(&Tree::of(&[
            SPEC,
            ("crates/b/specs/B.antt", "\npub f : A\nf = 2\n"),
            ("crates/a/src/lib.rt", "pub fn f() {\n}\n"),
            ("crates/b/src/lib.rt", "pub fn f() {\n}\n"),
        ]));
        let expected =
            "# definitions and laws\nf crates/a/specs/A.antt:1 crates/b/specs/B.antt:2\n\
            # code\nf crates/a/src/lib.rt:1 crates/b/src/lib.rt:1\n";
        assert_eq!(list(&masked.sources()), expected);
    }
}
