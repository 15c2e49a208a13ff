//! Names that a file brings in and does not use.

use crate::declared::{Declaration, Kind};
use crate::edits::Edit;
use crate::fault::Fault;
use crate::imports::{Import, Item};
use crate::source::Source;
use crate::words::{masked, parts, words, Joint, Language, Word, HOLE};
use std::collections::HashSet;
use std::ops::Range;

/// The members of traits, each with its trait.
pub struct Traits<'a>(Vec<(&'a str, &'a str)>);

impl<'a> Traits<'a> {
    pub fn of(sources: &[Source<'a>]) -> Traits<'a> {
        let declared = || sources.iter().flat_map(|source| &source.declarations);
        let is_trait = |declared: &&Declaration| declared.kind == Kind::Trait;
        let traits: HashSet<&str> = declared().filter(is_trait).map(|found| found.name).collect();
        let owner = |member: &Declaration<'a>| member.owner.filter(|owner| traits.contains(owner));
        Traits(declared().filter_map(|member| Some((owner(member)?, member.name))).collect())
    }

    /// Whether the code names a member of this trait: it has to bring in the trait for it.
    fn calls(&self, source: &Source, name: &str) -> bool {
        let mut members = self.0.iter().filter(|(owner, _)| *owner == name);
        let called = |member: &str| {
            let joined = |word: &Word| !word.contract && word.joint != Joint::None;
            source.words.iter().any(|word| word.text == member && joined(word))
        };
        members.any(|(_, member)| called(member))
    }
}

pub fn faults(sources: &[Source], edits: &[Edit]) -> Vec<Fault> {
    let traits = Traits::of(sources);
    let mut found = Vec::new();
    for source in sources {
        for (_, item) in unused(source, edits, &traits) {
            let what = format!("{} is brought in and not used", item.local);
            found.push(Fault::new(source.path, source.line(item.range.start), what));
        }
    }
    found
}

/// The items that nothing in the file names, nor what a must-fail edit puts into it.
fn unused<'a, 's>(
    source: &'s Source<'a>,
    edits: &[Edit],
    traits: &Traits,
) -> Vec<(&'s Import<'a>, &'s Item<'a>)> {
    let inserted: Vec<String> = edits
        .iter()
        .filter(|edit| edit.path == source.path)
        .map(|edit| masked(&edit.new, source.language))
        .collect();
    let contract = |ghost: bool| Used::of(source, &inserted, ghost, None);
    let (code, ghost) = (contract(false), contract(true));
    let has = |import: &Import, item: &Item| match &import.block {
        Some(block) => Used::of(source, &inserted, true, Some(block)).has(item.local),
        None if import.ghost => ghost.has(item.local),
        None => code.has(item.local) || traits.calls(source, item.name),
    };
    let mut found = Vec::new();
    for import in source.imports.iter().filter(|import| !import.public) {
        let unused = import.items.iter().filter(|item| !has(import, item));
        found.extend(unused.map(|item| (import, item)));
    }
    found
}

/// The names that a file uses: without what stands behind a dot, with the parts of operators.
struct Used<'a> {
    names: HashSet<&'a str>,
}

impl<'a> Used<'a> {
    /// Those of contracts alone, or of all else; of one block, or of all that no block brings in for itself.
    fn of(
        source: &Source<'a>,
        inserted: &'a [String],
        ghost: bool,
        block: Option<&Range<usize>>,
    ) -> Used<'a> {
        let inner: Vec<&Import> =
            source.imports.iter().filter(|import| import.block.is_some()).collect();
        let here = |word: &Word| match block {
            Some(block) => block.contains(&word.start),
            None => !inner.iter().any(|import| brings_in(import, word)),
        };
        let free = |word: &&Word<'a>| {
            word.joint == Joint::None
                && (source.language == Language::Antt || !ghost || word.contract)
                && here(word)
        };
        let mut names: HashSet<&str> =
            source.words.iter().filter(free).map(|word| word.text).collect();
        names.extend(
            inserted.iter().flat_map(|text| words(text, Language::Antt)).map(|word| word.text),
        );
        let others = source.imports.iter().filter(|import| !import.module);
        names.extend(others.filter_map(|import| import.path.split('.').next()));
        let sections: Vec<&str> = names.iter().map(|name| name.trim_matches(HOLE)).collect();
        names.extend(sections);
        Used { names }
    }

    fn has(&self, name: &str) -> bool {
        self.names.contains(name)
            || name.contains(HOLE) && parts(name).all(|part| self.names.contains(part))
    }
}

/// Whether an import of a block brings in this word of the block.
fn brings_in(import: &Import, word: &Word) -> bool {
    let inside = import.block.as_ref().is_some_and(|block| block.contains(&word.start));
    let is = |name: &str| name == word.text || parts(name).any(|part| part == word.text);
    inside && word.contract && import.items.iter().any(|item| is(item.local))
}

/// The text of a file without the names that it does not use.
pub fn fixed(source: &Source, text: &str, edits: &[Edit], traits: &Traits) -> Option<String> {
    let unused = unused(source, edits, traits);
    if unused.is_empty() {
        return None;
    }
    let mut fixed = String::new();
    let mut at = 0;
    for import in &source.imports {
        let kept: Vec<&Item> = import
            .items
            .iter()
            .filter(|item| !unused.iter().any(|(_, other)| other.range.start == item.range.start))
            .collect();
        if kept.len() < import.items.len() {
            fixed.push_str(&text[at..import.range.start]);
            fixed.push_str(&without(text, import, &kept));
            at = import.range.end;
        }
    }
    fixed.push_str(&text[at..]);
    Some(fixed)
}

/// An import with these items alone; nothing if there are none.
fn without(text: &str, import: &Import, kept: &[&Item]) -> String {
    let statement = &text[import.range.clone()];
    match (statement.find('{'), statement.rfind('}')) {
        (Some(open), Some(close)) if !kept.is_empty() => {
            let items: Vec<&str> = kept.iter().map(|item| &text[item.range.clone()]).collect();
            format!("{}{}{}", &statement[..=open], items.join(", "), &statement[close..])
        }
        _ => String::new(),
    }
}

#[cfg(test)]
mod tests {
    use super::*;
    use crate::edits::edits;
    use crate::source::mask;
    use crate::tree::Tree;

    fn whats(files: &[(&str, &str)]) -> Vec<String> {
        let tree = Tree::of(files);
        let masked = mask(&tree);
        faults(&masked.sources(), &edits(&tree)).iter().map(Fault::to_string).collect()
    }

    #[test]
    fn of_antt() {
        let text = "use a.B.{c, d, ◌≡◌, ◌∷◌, ◌+◌, []}\nuse a.E as e\nuse a.F as f\nuse f.{g}\n\
            -- d\nlaw : c ≡ x.d\nlaw = g (◌+ 1) (e.d ∷ [])\n";
        assert_eq!(
            whats(&[("crates/a/proofs/A.antt", text)]),
            ["crates/a/proofs/A.antt:1: d is brought in and not used"]
        );
    }

    #[test]
    fn passed_on_is_used() {
        assert!(whats(&[("crates/a/specs/A.antt", "pub use a.B.{c}\n")]).is_empty());
    }

    #[test]
    fn of_rattle() {
        let text = "use record::Edit;\nuse record::Body;\nghost use a.B.{b, c};\nfn f(b: Edit)\n    ensures { c }\n{\n}\n";
        let expected = [
            "crates/a/src/lib.rt:2: Body is brought in and not used",
            "crates/a/src/lib.rt:3: b is brought in and not used",
        ];
        assert_eq!(whats(&[("crates/a/src/lib.rt", text)]), expected);
    }

    #[test]
    fn of_modules() {
        let code = |text| ("crates/a/src/lib.rt", text);
        assert!(whats(&[code("use b;\nfn f() {\n    b::g()\n}\n")]).is_empty());
        let expected = ["crates/a/src/lib.rt:1: b is brought in and not used"];
        assert_eq!(whats(&[code("use b;\nfn f() {\n    g()\n}\n")]), expected);
    }

    #[test]
    fn an_edit_may_use_it() {
        let edit = ("crates/a/must-fail/x.edit", "file: specs/A.antt\nold: b = 1\nnew: b = c\n");
        assert!(whats(&[("crates/a/specs/A.antt", "use a.B.{c}\nb = 1\n"), edit]).is_empty());
    }

    #[test]
    fn taken_out() {
        let text = "use a.B.{c, d as e}\nuse a.F as f\nb = e\n";
        let tree = Tree::of(&[("crates/a/specs/A.antt", text)]);
        let masked = mask(&tree);
        assert_eq!(
            fixed(&masked.sources()[0], text, &[], &Traits(Vec::new())),
            Some("use a.B.{d as e}\nb = e\n".to_string())
        );
    }

    #[test]
    fn of_blocks() {
        let text = "ghost use a.B.{b, c, d, ◌≤◌};\n\nimpl S {\n    ghost use a.D.{c, e, ◌≤◌};\n\n    ghost m = { b ≤ c };\n}\n\n\
            fn f()\n    ensures { d e }\n{\n}\n";
        let expected = [
            "crates/a/src/lib.rt:1: c is brought in and not used",
            "crates/a/src/lib.rt:1: ◌≤◌ is brought in and not used",
            "crates/a/src/lib.rt:4: e is brought in and not used",
        ];
        assert_eq!(whats(&[("crates/a/src/lib.rt", text)]), expected);
        let tree = Tree::of(&[("crates/a/src/lib.rt", text)]);
        let masked = mask(&tree);
        let sources = masked.sources();
        let fixed = fixed(&sources[0], text, &[], &Traits::of(&sources)).unwrap();
        assert!(fixed.starts_with("ghost use a.B.{b, d};\n"));
        assert!(fixed.contains("{\n    ghost use a.D.{c, ◌≤◌};\n"));
    }

    #[test]
    fn a_trait_is_used_by_its_members() {
        let part = ("crates/a/src/lib.rt", "pub trait T {\n    fn m(self);\n}\n");
        let code = |text| ("crates/b/src/lib.rt", text);
        assert!(whats(&[part, code("use a::T;\nfn f() {\n    x.m()\n}\n")]).is_empty());
        assert!(whats(&[part, code("use a::T;\nfn f() {\n    x::m()\n}\n")]).is_empty());
        assert_eq!(whats(&[part, code("use a::T;\nfn f() {\n    m(x)\n}\n")]).len(), 1);
    }
}
