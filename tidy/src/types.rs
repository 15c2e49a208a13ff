//! The structs and enums of the code, and which of them a crate touches: it may list the crates of these.

use crate::declared::{Declaration, Kind};
use crate::source::Source;
use crate::words::{Joint, Language, Word};
use std::collections::{BTreeMap, BTreeSet};

/// A type or a function by its crate and its name.
type Name<'a> = (&'a str, &'a str);

#[derive(Default)]
pub struct Types<'a> {
    /// The types that the declaration of a type names.
    parts: BTreeMap<Name<'a>, BTreeSet<Name<'a>>>,
    /// The types that a field of a crate's types names, by crate and field.
    fields: BTreeMap<Name<'a>, BTreeSet<Name<'a>>>,
    /// The types that the head of a function names.
    heads: BTreeMap<Name<'a>, BTreeSet<Name<'a>>>,
}

impl<'a> Types<'a> {
    pub fn of(sources: &[Source<'a>]) -> Types<'a> {
        let mut types = Types::default();
        for source in sources.iter().filter(|source| source.language == Language::Rattle) {
            for declared in &source.declarations {
                match declared.kind {
                    Kind::Type => types.add_type(source, declared),
                    Kind::Function => types.add_function(source, declared),
                    _ => {}
                }
            }
        }
        types
    }

    fn add_type(&mut self, source: &Source<'a>, declared: &Declaration<'a>) {
        let mut field = "";
        for place in places(source, declared.range.start, declared.range.end) {
            let word = &source.words[place];
            let colon = source.text[word.end()..].starts_with(": ");
            if colon {
                field = word.text;
            } else {
                let named = type_at(source, place);
                self.parts.entry((source.crate_name, declared.name)).or_default().insert(named);
                self.fields.entry((source.crate_name, field)).or_default().insert(named);
            }
        }
    }

    fn add_function(&mut self, source: &Source<'a>, declared: &Declaration<'a>) {
        let text = &source.text[declared.range.clone()];
        let length = ["{", "requires", "ensures"].iter().filter_map(|end| text.find(end)).min();
        let end = declared.range.start + length.unwrap_or(text.len());
        let named = places(source, declared.range.start, end).map(|place| type_at(source, place));
        self.heads.insert((source.crate_name, declared.name), named.collect());
    }

    /// The crates of the types that the code makes, with all that lies within them, hands to functions or gets from them, or reaches by a field.
    pub fn crates_touched(&self, source: &Source<'a>) -> BTreeSet<&'a str> {
        let mut found = BTreeSet::new();
        for place in (0..source.words.len()).filter(|place| makes(source, *place)) {
            self.add_within(type_at(source, place), &mut found);
        }
        for place in 0..source.words.len() {
            let named = self.heads.get(&type_at(source, place)).into_iter().flatten();
            found.extend(named.filter(|name| self.parts.contains_key(*name)));
        }
        self.add_reached(source, &mut found);
        found.into_iter().map(|(crate_name, _)| crate_name).collect()
    }

    fn add_within(&self, outer: Name<'a>, found: &mut BTreeSet<Name<'a>>) {
        if let Some(parts) = self.parts.get(&outer).filter(|_| !found.contains(&outer)) {
            found.insert(outer);
            for part in parts {
                self.add_within(*part, found);
            }
        }
    }

    /// The types of the fields that the code names, of types of the crates that are touched, until there are no more.
    fn add_reached(&self, source: &Source<'a>, found: &mut BTreeSet<Name<'a>>) {
        let words = source.words.iter().filter(|word| !word.contract && word.joint == Joint::Dot);
        let fields: BTreeSet<&str> = words.map(|word| word.text).collect();
        loop {
            let crates: BTreeSet<&str> = found.iter().map(|(crate_name, _)| *crate_name).collect();
            let reached =
                crates.iter().flat_map(|name| fields.iter().map(move |field| (*name, *field)));
            let types = reached.filter_map(|field| self.fields.get(&field)).flatten();
            let more: Vec<Name> = types
                .filter(|name| self.parts.contains_key(*name) && !found.contains(*name))
                .copied()
                .collect();
            if more.is_empty() {
                return;
            }
            found.extend(more);
        }
    }
}

/// The places of the words of the code between two places of the text.
fn places<'s>(source: &'s Source, start: usize, end: usize) -> impl Iterator<Item = usize> + 's {
    let inside = move |place: &usize| (start..end).contains(&source.words[*place].start);
    (0..source.words.len()).filter(inside)
}

/// Whether the word of the code is a type of which a value is made: `T {` or `T::`, and not the answer of a function.
fn makes(source: &Source, place: usize) -> bool {
    let word = &source.words[place];
    let after = source.text[word.end()..].trim_start();
    let before = source.text[..word.start].trim_end();
    let declares = |word: &Word| ["struct", "enum"].contains(&word.text);
    let declared = place > 0 && declares(&source.words[place - 1]);
    let literal = after.starts_with('{') && !before.ends_with("->") && !declared;
    !word.contract && (literal || after.starts_with("::"))
}

/// The type or function that a word of the code stands for, if it is one.
fn type_at<'a>(source: &Source<'a>, place: usize) -> Name<'a> {
    let name = source.words[place].text;
    if source.words[place].joint == Joint::Colons && place > 0 {
        return (crate_at(source, source.words[place - 1].text), name);
    }
    let path = path_of(source, name);
    (path.map_or(source.crate_name, |path| head(source, path)), name)
}

/// The crate of `HEAD::NAME`, where the head is a crate, or a module that is brought in or the crate's own.
fn crate_at<'a>(source: &Source<'a>, place: &'a str) -> &'a str {
    path_of(source, place).map_or(place, |path| head(source, path))
}

fn path_of<'a>(source: &Source<'a>, name: &str) -> Option<&'a str> {
    let mut imports = source.imports.iter().filter(|import| !import.ghost);
    let import = imports.find(|import| import.items.iter().any(|item| item.local == name))?;
    Some(import.path)
}

/// The crate that a path begins with.
fn head<'a>(source: &Source<'a>, path: &'a str) -> &'a str {
    match path.split("::").next() {
        Some("crate" | "super") | None => source.crate_name,
        Some(name) => name,
    }
}

#[cfg(test)]
mod tests {
    use super::*;
    use crate::source::mask;
    use crate::tree::Tree;

    const A: (&str, &str) = ("crates/a/src/lib.rt", "pub struct A {\n    pub x: u8,\n}\n");
    const B: (&str, &str) = (
        "crates/b/src/lib.rt",
        "use a::A;\npub struct B {\n    pub part: A,\n}\npub enum E {\n    One(B),\n}\n\
        pub fn f(x: u8) -> B\n    ensures { x }\n{\n    x\n}\n",
    );

    /// What the code of another crate touches.
    fn touched(text: &str) -> Vec<String> {
        let masked = mask(&Tree::of(&[A, B, ("crates/c/src/lib.rt", text)]));
        let sources = masked.sources();
        let crates = Types::of(&sources).crates_touched(&sources[2]);
        crates.into_iter().map(str::to_string).collect()
    }

    #[test]
    fn moved_alone() {
        assert_eq!(touched("use b::B;\nfn g(b: B) -> B {\n    b\n}\n"), ["b"]);
    }

    #[test]
    fn within_what_is_made() {
        assert_eq!(touched("use b::B;\nfn g(x: u8) {\n    B { part: x }\n}\n"), ["a", "b"]);
        assert_eq!(touched("fn g(b: u8) {\n    b::E::One(b)\n}\n"), ["a", "b"]);
    }

    #[test]
    fn reached_by_a_field() {
        assert_eq!(touched("fn g(x: u8) {\n    let b = b::f(x);\n}\n"), ["b"]);
        assert_eq!(touched("fn g(x: u8) {\n    let a = b::f(x).part;\n}\n"), ["a", "b"]);
    }

    #[test]
    fn types_of_modules() {
        let masked = mask(&Tree::of(&[
            ("crates/a/src/part.rt", "pub struct A {\n    pub x: u8,\n}\n"),
            ("crates/b/src/lib.rt", "use a::part::A;\npub struct B {\n    pub a: A,\n}\n"),
            ("crates/b/src/own.rt", "use crate::B;\nfn f(x: u8) {\n    B { a: x }\n}\n"),
            ("crates/c/src/lib.rt", "use a::part;\nfn f(x: u8) {\n    part::A { x: x }\n}\n"),
        ]));
        let sources = masked.sources();
        let types = Types::of(&sources);
        let crates =
            |place: usize| types.crates_touched(&sources[place]).into_iter().collect::<Vec<_>>();
        assert_eq!(crates(2), ["a", "b"]);
        assert_eq!(crates(3), ["a"]);
    }
}
