//! A source of a crate, read once for all rules.

use crate::declared::{declarations, Declaration};
use crate::imports::{imports, Import};
use crate::tree::{crate_of, Tree};
use crate::words::{line_at, masked, words, Language, Word};
use std::collections::HashSet;

/// The files in the folder of a function of proofs/ that prove it: the kit finds them by their place.
const PROOFS: [&str; 3] = ["Answers.antt", "Invariants.antt", "Proof.antt"];

/// The sources with comments and quoted texts blanked.
pub struct Masked(Vec<(String, String)>);

pub fn mask(tree: &Tree) -> Masked {
    let mask = |(path, text): (&str, &str)| Some((path.to_string(), masked(text, language(path)?)));
    Masked(tree.iter().filter(|(path, _)| crate_of(path).is_some()).filter_map(mask).collect())
}

/// The files that a `mod` line of antt names. The file of a module `A` is `A.antt` or, of a whole crate's proofs or specs, `Lib.antt`.
fn modules(masked: &[(String, String)]) -> HashSet<String> {
    let mut found = HashSet::new();
    for (path, text) in masked {
        let Some(home) = path.strip_suffix("/Lib.antt").or(path.strip_suffix(".antt")) else {
            continue;
        };
        let names = text.lines().filter_map(|line| {
            line.strip_prefix("pub ").unwrap_or(line).strip_prefix("mod ").map(str::trim)
        });
        found.extend(names.map(|name| format!("{home}/{name}.antt")));
    }
    found
}

/// Whether it is the proof of a function and no module of laws: `proofs/FN/Answers.antt`.
fn is_proof(path: &str, modules: &HashSet<String>) -> bool {
    let name = path.rsplit('/').next().unwrap_or(path);
    path.split('/').nth(2) == Some("proofs") && PROOFS.contains(&name) && !modules.contains(path)
}

fn language(path: &str) -> Option<Language> {
    match path.rsplit('.').next()? {
        "antt" => Some(Language::Antt),
        "rt" => Some(Language::Rattle),
        _ => None,
    }
}

pub struct Source<'a> {
    pub path: &'a str,
    pub crate_name: &'a str,
    pub language: Language,
    /// The masked text.
    pub text: &'a str,
    /// Whether it is the proof of a function, or a part of it.
    pub proves_function: bool,
    pub imports: Vec<Import<'a>>,
    pub declarations: Vec<Declaration<'a>>,
    /// The words outside the imports.
    pub words: Vec<Word<'a>>,
}

impl Masked {
    pub fn sources(&self) -> Vec<Source<'_>> {
        let modules = modules(&self.0);
        let proof = |path: &str| is_proof(path, &modules);
        self.0.iter().filter_map(|(path, text)| source(path, text, proof(path))).collect()
    }
}

fn source<'a>(path: &'a str, text: &'a str, proves_function: bool) -> Option<Source<'a>> {
    let language = language(path)?;
    let imports = imports(text, language);
    let outside = |word: &Word| !imports.iter().any(|import| import.range.contains(&word.start));
    let words = words(text, language).into_iter().filter(outside).collect();
    let declarations = declarations(text, language);
    let crate_name = crate_of(path)?;
    Some(Source { path, crate_name, language, text, proves_function, imports, declarations, words })
}

impl Source<'_> {
    pub fn line(&self, place: usize) -> usize {
        line_at(self.text, place)
    }

    /// The folder of the crate: src, specs or proofs.
    pub fn folder(&self) -> &str {
        self.path.split('/').nth(2).unwrap_or("")
    }

    /// The module as `CRATE.specs.NAME`.
    pub fn module(&self) -> String {
        let path = self.path.trim_start_matches("crates/").trim_end_matches(".antt");
        path.replace('/', ".")
    }
}

/// A path of antt to a module of a crate, `Rattle.CRATE.specs.NAME`, as `CRATE.specs.NAME`.
pub fn module_of(path: &str) -> Option<&str> {
    path.strip_prefix("Rattle.")
}

#[cfg(test)]
mod tests {
    use super::*;

    #[test]
    fn proofs_of_functions() {
        let masked = mask(&Tree::of(&[
            ("crates/a/proofs/Answers.antt", ""),
            ("crates/a/proofs/Lib.antt", "mod Answers\npub mod part\n"),
            ("crates/a/proofs/f/Answers.antt", ""),
            ("crates/a/proofs/f/Invariants.antt", ""),
            ("crates/a/proofs/part.antt", "pub mod Proof\n"),
            ("crates/a/proofs/part/+g/Proof.antt", ""),
            ("crates/a/proofs/part/Proof.antt", ""),
            ("crates/a/specs/f/Answers.antt", ""),
        ]));
        let sources = masked.sources();
        let found: Vec<&str> = sources
            .iter()
            .filter(|source| source.proves_function)
            .map(|source| source.path)
            .collect();
        let expected = [
            "crates/a/proofs/f/Answers.antt",
            "crates/a/proofs/f/Invariants.antt",
            "crates/a/proofs/part/+g/Proof.antt",
        ];
        assert_eq!(found, expected);
    }

    #[test]
    fn modules_of_crates() {
        assert_eq!(module_of("Rattle.a.specs.B"), Some("a.specs.B"));
        assert_eq!(module_of("mathlib.Core.Path"), None);
    }
}
