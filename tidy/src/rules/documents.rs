//! Documents name what is there: files, functions, definitions, laws and must-fail edits.

use crate::fault::Fault;
use crate::source::Source;
use crate::spans::Span;
use crate::tree::Tree;
use crate::words::Language;
use std::collections::{BTreeSet, HashSet};

const FOLDERS: [&str; 10] =
    [".ci", "benchmark", "check", "crates", "docs", "example", "include", "runs", "tidy", "tools"];

/// The folders of a crate. Before them `crates/` may be left out.
const PARTS: [&str; 4] = ["must-fail", "proofs", "specs", "src"];

/// What the names of sources, documents and edits end with.
const FILES: [&str; 6] = ["antt", "edit", "h", "md", "rs", "rt"];

/// Words that stand for any name.
const ANY: [&str; 3] = ["FN", "LABEL", "NAME"];

/// The documents whose names have to be declared.
const OF_NAMES: [&str; 2] = ["docs/PROMISES.md", "docs/OPERATIONS.md"];

/// Those that tell what names were, too.
const OF_THE_PAST: [&str; 3] = ["docs/DESIGN-PASS.md", "docs/LANDINGS.md", "docs/PORT.md"];

pub fn faults(tree: &Tree, sources: &[Source], spans: &[Span]) -> Vec<Fault> {
    let declared = Declared::of(tree, sources);
    let mut found = paths(tree);
    found.extend(spans.iter().filter_map(|span| declared.function(span)));
    let of_today = spans.iter().filter(|span| !tells_others(tree, span.path));
    found.extend(of_today.filter_map(|span| declared.name(span)));
    let past = |span: &&Span| OF_THE_PAST.contains(&span.path);
    let files = spans.iter().filter(|span| !past(span) && is_file(span.text));
    let gone = files.filter(|span| !stands(tree, span));
    found.extend(gone.map(|span| fault(span, format!("{} is not there", span.text))));
    found
}

/// Whether it is the name of a source, a document or an edit, without its folder.
fn is_file(text: &str) -> bool {
    let Some((name, end)) = text.split_once('.') else { return false };
    let plain = name.chars().all(|c| c.is_ascii_alphanumeric() || "-_".contains(c));
    plain && !name.is_empty() && !ANY.contains(&name) && FILES.contains(&end)
}

/// Whether a file of this name is there, in any folder.
fn stands(tree: &Tree, span: &Span) -> bool {
    tree.iter().any(|(path, _)| path.rsplit('/').next() == Some(span.text))
}

/// Whether a document tells of what was, or stands beside a Rust program and tells of it.
fn tells_others(tree: &Tree, document: &str) -> bool {
    let home = document.rsplit_once('/').map_or("", |(home, _)| home);
    OF_THE_PAST.contains(&document) || tree.has(&format!("{home}/src"))
}

/// The paths of the documents that lead nowhere.
fn paths(tree: &Tree) -> Vec<Fault> {
    let mut found = Vec::new();
    for (document, text) in tree.iter().filter(|(path, _)| path.ends_with(".md")) {
        let home = document.rsplit_once('/').map_or("", |(home, _)| home);
        let gone = |word: &&str| is_path(tree, home, word) && !leads(tree, home, word);
        for (place, line) in text.lines().enumerate() {
            let words = line.split(is_end).map(|word| word.trim_end_matches('.'));
            let fault = |path| Fault::new(document, place + 1, format!("{path} is not there"));
            found.extend(words.filter(gone).map(fault));
        }
    }
    found
}

/// Whether no path holds the character.
fn is_end(c: char) -> bool {
    c.is_whitespace() || "`\"'()[]<>|,;:".contains(c)
}

/// Whether a word of a document is a path to one file or folder: from the top, from crates/, or where the document stands beside src/ from there.
fn is_path(tree: &Tree, home: &str, word: &str) -> bool {
    let Some((head, rest)) = word.split_once('/') else { return false };
    let several =
        word.contains(['*', '{', '}']) || word.split(['/', '.']).any(|part| ANY.contains(&part));
    let inner = rest.split('/').next().unwrap_or("");
    let beside = head == "src" && tree.has(&format!("{home}/src"));
    !several && (FOLDERS.contains(&head) || PARTS.contains(&inner) || beside)
}

fn leads(tree: &Tree, home: &str, path: &str) -> bool {
    tree.has(path) || tree.has(&format!("crates/{path}")) || tree.has(&format!("{home}/{path}"))
}

#[derive(Default)]
struct Declared<'a> {
    crates: BTreeSet<&'a str>,
    /// `CRATE::NAME` of the code, a module or what one declares, and `CRATE::TYPE::NAME` of a member.
    code: HashSet<String>,
    /// All names of code and antt, of crates and of must-fail edits.
    names: HashSet<&'a str>,
    /// What the sources name, as those of the kit and of modules.
    words: HashSet<&'a str>,
}

impl<'a> Declared<'a> {
    fn of(tree: &'a Tree, sources: &'a [Source]) -> Declared<'a> {
        let mut declared = Declared::default();
        for source in sources {
            declared.crates.insert(source.crate_name);
            if let Some(module) =
                source.path.strip_suffix(".rt").and_then(|path| path.rsplit('/').next())
            {
                declared.code.insert(format!("{}::{module}", source.crate_name));
                declared.words.insert(module);
            }
            declared.words.extend(source.words.iter().map(|word| word.text));
            let items = source.imports.iter().flat_map(|import| &import.items);
            declared.words.extend(items.map(|item| item.name));
            for found in &source.declarations {
                declared.names.insert(found.name);
                if source.language == Language::Rattle {
                    declared.code.insert(format!("{}::{}", source.crate_name, found.name));
                    let member = |owner| format!("{}::{owner}::{}", source.crate_name, found.name);
                    declared.code.extend(found.owner.map(member));
                }
            }
        }
        let edits =
            tree.iter().filter_map(|(path, _)| path.strip_suffix(".edit")?.rsplit('/').next());
        declared.names.extend(edits);
        declared.names.extend(&declared.crates);
        declared
    }

    /// `CRATE::FUNCTION`, `CRATE::MODULE::FUNCTION` or `CRATE::MODULE::TYPE::FUNCTION`, with its parameters or without, where the crate has no such
    /// function or module.
    fn function(&self, span: &Span) -> Option<Fault> {
        let end = span
            .text
            .find(|c: char| !c.is_ascii_alphanumeric() && c != '_' && c != ':')
            .unwrap_or(span.text.len());
        let (crate_name, rest) = span.text[..end].split_once("::")?;
        let name = behind_modules(rest);
        let modules = rest[..rest.len() - name.len()].split("::").filter(|part| !part.is_empty());
        let unknown = |name: &&str| !self.code.contains(&format!("{crate_name}::{name}"));
        let unknown = modules.chain([name]).find(unknown)?;
        self.crates
            .contains(crate_name)
            .then(|| fault(span, format!("{crate_name} has no {unknown}")))
    }

    /// A name of several words that nothing declares or, where the document need not have it declared, that no source names. Where it has to, a name of
    /// one word is at least one of a source's.
    fn name(&self, span: &Span) -> Option<Fault> {
        let strict = OF_NAMES.contains(&span.path);
        let named = self.words.contains(span.text) || PARTS.contains(&span.text);
        let known = self.names.contains(span.text)
            || match is_name(span.text) {
                true => named && !strict,
                false => named || !strict || !is_word(span.text),
            };
        (!known).then(|| fault(span, format!("{} is declared nowhere", span.text)))
    }
}

/// The last name of a path, with the type before it.
fn behind_modules(path: &str) -> &str {
    let Some((head, name)) = path.rsplit_once("::") else { return path };
    let owner = head.rsplit("::").next().unwrap_or(head);
    let length = if owner.starts_with(char::is_uppercase) { owner.len() + 2 } else { 0 };
    &path[path.len() - name.len() - length..]
}

fn fault(span: &Span, what: String) -> Fault {
    Fault::new(span.path, span.line, what)
}

fn is_word(text: &str) -> bool {
    1 < text.len() && text.chars().all(char::is_alphabetic)
}

/// Whether a hyphen, an underscore or a capital joins words to one name.
fn is_name(text: &str) -> bool {
    let plain = text.chars().all(|c| c.is_alphanumeric() || "-_'".contains(c));
    let capital =
        text.chars().zip(text.chars().skip(1)).any(|(a, b)| a.is_lowercase() && b.is_uppercase());
    plain && text.starts_with(char::is_alphabetic) && (capital || text.contains(['-', '_']))
}

#[cfg(test)]
mod tests {
    use super::*;
    use crate::source::mask;
    use crate::spans::spans;

    fn whats(path: &str, text: &str) -> Vec<String> {
        let tree = Tree::of(&[
            (path, text),
            (
                "crates/a/src/lib.rt",
                "pub fn f() {\n    has\n}\n\nimpl S {\n    fn has_m(&self) {\n    }\n}\n\npub trait T {\n    fn of_t();\n}\n",
            ),
            ("crates/a/src/part.rt", ""),
            ("crates/a/proofs/A.antt", "use Rattle.std.proofs.B.{kit-law}\n\npub f-is : A\n"),
            ("crates/a/must-fail/off_by_one.edit", ""),
            ("check/src/main.rs", ""),
            ("runs/x.log", ""),
        ]);
        let masked = mask(&tree);
        let sources = masked.sources();
        faults(&tree, &sources, &spans(&tree)).iter().map(Fault::to_string).collect()
    }

    #[test]
    fn paths_lead_somewhere() {
        assert!(whats(
            "docs/A.md",
            "`crates/a/src/lib.rt` `runs/` (a/proofs/A.antt). `crates/NAME/x` `runs/*.log` and/or"
        )
        .is_empty());
        assert!(whats("check/README.md", "`src/main.rs`").is_empty());
        assert_eq!(
            whats("docs/A.md", "\n`cat runs/y.log`"),
            ["docs/A.md:2: runs/y.log is not there"]
        );
        assert_eq!(whats("docs/A.md", "b/proofs/A.antt, a/specs/A.antt").len(), 2);
        assert_eq!(whats("docs/A.md", "`crates/b`"), ["docs/A.md:1: crates/b is not there"]);
        let files = "`A.antt` `main.rs` `NAME.edit` `other.log` `B.antt` `GONE.md`";
        let gone = ["docs/A.md:1: B.antt is not there", "docs/A.md:1: GONE.md is not there"];
        assert_eq!(whats("docs/A.md", files), gone);
    }

    #[test]
    fn functions_are_there() {
        assert!(whats("docs/A.md", "`a::f` `a::part::f(x: u8)` `std::g`").is_empty());
        assert_eq!(whats("docs/A.md", "`a::g(x)`"), ["docs/A.md:1: a has no g"]);
        assert_eq!(whats("docs/A.md", "`a::gone::f`"), ["docs/A.md:1: a has no gone"]);
    }

    #[test]
    fn members_are_there() {
        let there = "`a::has_m` `a::S::has_m` `a::part::S::has_m(x)` `a::T` `a::part::T::of_t`";
        assert!(whats("docs/A.md", there).is_empty());
        assert_eq!(whats("docs/A.md", "`a::T::has_m`"), ["docs/A.md:1: a has no T::has_m"]);
        assert!(whats("docs/OPERATIONS.md", "`has_m` `of_t`").is_empty());
        assert_eq!(
            whats("docs/OPERATIONS.md", "`has_n`"),
            ["docs/OPERATIONS.md:1: has_n is declared nowhere"]
        );
    }

    #[test]
    fn names_are_declared() {
        assert!(whats("docs/PROMISES.md", "`f-is` `has` `off_by_one` `a = b-c`").is_empty());
        for document in ["docs/A.md", "README.md", "docs/PROMISES.md"] {
            assert_eq!(whats(document, "`f-was` `f-is`").len(), 1);
        }
        for document in ["docs/PORT.md", "check/README.md"] {
            assert!(whats(document, "`f-was`").is_empty());
        }
        assert!(whats("docs/A.md", "`must-fail` `kit-law`").is_empty());
        assert_eq!(whats("docs/PROMISES.md", "`kit-law` `gone` `f` `x`").len(), 2);
        assert!(whats("docs/A.md", "`gone`").is_empty());
        assert_eq!(whats("docs/PROMISES.md", "`f-was` `fOf` `off_by_two`").len(), 3);
    }
}
