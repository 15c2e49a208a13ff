//! What a source declares.

use crate::words::{parts, Language, HOLE};
use std::ops::Range;

#[derive(Clone, Copy, PartialEq, Eq, Debug)]
pub enum Kind {
    /// A definition or a law.
    Value,
    Record,
    Data,
    Function,
    Constant,
    /// A struct or an enum of the code.
    Type,
    Trait,
    /// A function or a constant of a type or a trait.
    Member,
    /// A field of a record, or a constructor.
    Part,
}

#[derive(Debug)]
pub struct Declaration<'a> {
    pub name: &'a str,
    pub kind: Kind,
    /// The type or the trait of a member.
    pub owner: Option<&'a str>,
    pub public: bool,
    /// Whether C calls it, or the system: `#[unsafe(no_mangle)]` or `main`.
    pub entry: bool,
    /// The signature with its clauses, or the function with its body.
    pub range: Range<usize>,
}

impl Declaration<'_> {
    /// Whether it lies within another one.
    pub fn is_inner(&self) -> bool {
        matches!(self.kind, Kind::Part | Kind::Member)
    }
}

struct Line<'a> {
    start: usize,
    indent: usize,
    text: &'a str,
}

/// The lines that are not blank.
fn lines(text: &str) -> Vec<Line<'_>> {
    let mut at = 0;
    let mut found = Vec::new();
    for line in text.split_inclusive('\n') {
        let indent = line.len() - line.trim_start().len();
        if !line.trim().is_empty() {
            found.push(Line { start: at, indent, text: line.trim() });
        }
        at += line.len();
    }
    found
}

/// The declarations of a masked text.
pub fn declarations(text: &str, language: Language) -> Vec<Declaration<'_>> {
    let lines = lines(text);
    match language {
        Language::Antt => of_antt(text, &lines),
        Language::Rattle => of_rattle(text, &lines),
    }
}

fn of_antt<'a>(text: &'a str, lines: &[Line<'a>]) -> Vec<Declaration<'a>> {
    let mut found: Vec<Declaration> = Vec::new();
    // the indent of the record or data type whose parts may follow
    let mut within: Option<usize> = None;
    for (place, line) in lines.iter().enumerate() {
        if within.is_some_and(|indent| line.indent <= indent) {
            within = None;
        }
        let Some((name, kind, public)) = antt_signature(line.text) else { continue };
        let kind = if within.is_some() { Kind::Part } else { kind };
        if matches!(kind, Kind::Record | Kind::Data) {
            within = Some(line.indent);
        }
        let range = line.start..end_of(lines, place, name).unwrap_or(text.len());
        found.push(Declaration { name, kind, owner: None, public, entry: false, range });
    }
    found
}

/// The name, the kind and whether it is public, if a signature stands here.
fn antt_signature(line: &str) -> Option<(&str, Kind, bool)> {
    let mut rest = line;
    let mut public = false;
    loop {
        let (word, more) = rest.split_once(' ')?;
        match word {
            "pattern" | "unfoldable" | "abbrev" | "axiom" => rest = more,
            "pub" => (rest, public) = (more, true),
            "record" if more.starts_with('{') => return None,
            "record" => return Some((name(more)?, Kind::Record, public)),
            "data" => return Some((name(more)?, Kind::Data, public)),
            "ruleset" => return Some((name(more)?, Kind::Value, public)),
            "use" | "mod" | "module" | "open" | "infix" | "infixl" | "infixr" | "unfolding"
            | "let" => return None,
            _ => break,
        }
    }
    let name = name(rest)?;
    let typed = after_levels(rest[name.len()..].trim_start());
    (typed == ":" || typed.starts_with(": ")).then_some((name, Kind::Value, public))
}

/// What stands behind the levels `{ℓ}` that a name may have.
fn after_levels(text: &str) -> &str {
    let levels = text.strip_prefix('{').and_then(|rest| rest.split_once('}'));
    levels.map_or(text, |(_, rest)| rest.trim_start())
}

fn name(text: &str) -> Option<&str> {
    text.split([' ', ';']).next().filter(|name| !name.is_empty() && !name.contains(['(', '{', '"']))
}

/// Where the declaration of a name ends: before the next line, no deeper, that is not one of its clauses.
fn end_of(lines: &[Line], place: usize, name: &str) -> Option<usize> {
    let indent = lines[place].indent;
    lines[place + 1..]
        .iter()
        .find(|line| line.indent <= indent && !is_clause(line.text, name))
        .map(|line| line.start)
}

/// Whether a line is a clause of the name, or says what its clauses unfold.
fn is_clause(line: &str, name: &str) -> bool {
    let first = line.split(' ').next().unwrap_or("");
    let left = line.split(" = ").next().unwrap_or("");
    let operator = || {
        name.contains(HOLE)
            && left.split([' ', '(', ')']).any(|word| parts(name).any(|part| part == word))
    };
    first == "unfolding" || first == name || antt_signature(line).is_none() && operator()
}

/// How far the members of a type or a trait are indented.
const MEMBER_INDENT: usize = 4;

fn of_rattle<'a>(text: &'a str, lines: &[Line<'a>]) -> Vec<Declaration<'a>> {
    let mut found = Vec::new();
    let mut owner = None;
    let mut outside = false;
    for line in lines {
        if line.indent == 0 {
            let closed = line.text.ends_with(['}', ';']);
            owner = owner_of(line.text).or(owner).filter(|_| !closed);
        }
        if let Some((name, kind, public)) = rattle_declared(line, owner) {
            let owner = owner.filter(|_| kind == Kind::Member);
            let entry = outside || owner.is_none() && name == "main";
            let range = line.start..end_of_item(text, line);
            found.push(Declaration { name, kind, owner, public, entry, range });
        }
        outside =
            line.text.starts_with("#[unsafe(no_mangle)]") || outside && line.text.starts_with("#[");
    }
    found
}

/// The type or the trait whose members may follow a line.
fn owner_of(line: &str) -> Option<&str> {
    if let Some((name, Kind::Trait, _)) = rattle_signature(line) {
        return Some(name);
    }
    let rest = line.strip_prefix("impl").filter(|rest| rest.starts_with([' ', '<']))?;
    let inherent = if rest.starts_with('<') { rest.split_once("> ")?.1 } else { rest };
    let typed = rest.split_once(" for ").map_or(inherent, |(_, typed)| typed).trim_start();
    typed[..name_length(typed, "_:")].rsplit("::").next()
}

/// The length of the name that a text begins with, of letters, digits and these.
fn name_length(text: &str, more: &str) -> usize {
    text.find(|c: char| !c.is_ascii_alphanumeric() && !more.contains(c)).unwrap_or(text.len())
}

/// What a line declares: at the margin, or a member where one may follow.
fn rattle_declared<'a>(line: &Line<'a>, owner: Option<&str>) -> Option<(&'a str, Kind, bool)> {
    let (name, kind, public) = rattle_signature(line.text)?;
    match (line.indent, owner) {
        (0, _) => Some((name, kind, public)),
        (MEMBER_INDENT, Some(_)) => Some((name, Kind::Member, public)),
        _ => None,
    }
}

/// Where an item of code ends: behind a semicolon that no bracket holds, or a brace below its beginning.
fn end_of_item(text: &str, line: &Line) -> usize {
    let mut depth = 0;
    let mut margin = None;
    for (place, c) in text[line.start..].char_indices() {
        margin = match c {
            '\n' => Some(0),
            ' ' => margin.map(|indent| indent + 1),
            '}' if margin == Some(line.indent) => return line.start + place + 1,
            ';' if depth == 0 => return line.start + place + 1,
            _ => None,
        };
        match c {
            '(' | '[' | '{' => depth += 1,
            ')' | ']' | '}' => depth -= 1,
            _ => {}
        }
    }
    text.len()
}

fn rattle_signature(line: &str) -> Option<(&str, Kind, bool)> {
    let mut rest = line;
    let mut public = false;
    loop {
        let (word, more) = rest.split_once(' ')?;
        let kind = match word {
            "pub" => {
                (rest, public) = (more, true);
                continue;
            }
            // the quoted "C" is masked
            "extern" | "" => {
                rest = more;
                continue;
            }
            "fn" => Kind::Function,
            "const" => Kind::Constant,
            "struct" | "enum" => Kind::Type,
            "trait" => Kind::Trait,
            _ => return None,
        };
        return Some((&more[..name_length(more, "_")], kind, public));
    }
}

#[cfg(test)]
mod tests {
    use super::*;

    fn shown(text: &str, language: Language) -> Vec<(&str, Kind, bool)> {
        declarations(text, language)
            .iter()
            .map(|found| (found.name, found.kind, found.public))
            .collect()
    }

    #[test]
    fn of_antt() {
        let text = "infix 40 ◌in◌\nabbrev pub ◌in◌ : A\nx in y = x\n\nby_it {ℓ} : A\n\npub record R : Type 0 where\n  pub part : A\n\n\
            module _ (a : A) where\n  open a use {b}\n  pub law : a ≡ a\n  unfolding f\n  law = refl\n    where\n      own : A\n\n\
            pub ruleset laws = (law, f)\n";
        let expected = [
            ("◌in◌", Kind::Value, true),
            ("by_it", Kind::Value, false),
            ("R", Kind::Record, true),
            ("part", Kind::Part, true),
            ("law", Kind::Value, true),
            ("own", Kind::Value, false),
            ("laws", Kind::Value, true),
        ];
        assert_eq!(shown(text, Language::Antt), expected);
        let found = declarations(text, Language::Antt);
        assert_eq!(text[found[0].range.clone()].trim(), "abbrev pub ◌in◌ : A\nx in y = x");
        assert!(text[found[4].range.clone()].trim_end().ends_with("own : A"));
    }

    #[test]
    fn of_rattle() {
        let text = "#![tactic(auto)]\n\n#[derive(Clone, Copy)]\npub struct S {\n    pub a: u8,\n}\n\n#[unsafe(no_mangle)]\npub extern     fn f(a: u8) -> u8\n{\n    a\n}\n\n\
            fn g() {\n}\nconst C: u8 = 1;\n";
        let expected = [
            ("S", Kind::Type, true),
            ("f", Kind::Function, true),
            ("g", Kind::Function, false),
            ("C", Kind::Constant, false),
        ];
        assert_eq!(shown(text, Language::Rattle), expected);
        assert!(declarations(text, Language::Rattle)[1].entry);
    }

    #[test]
    fn members() {
        let text = "pub trait T<const N: usize>: Copy {\n    ghost a: { Self → ℕ };\n\n    const C: usize;\n\n    fn f(self) -> u8\n        ensures { a self };\n\n    fn g();\n}\n\n\
            impl<'a> T<5> for part::S<'a> {\n    fn f(self) -> u8 {\n        fn own() {\n        }\n        let x = 1;\n    }\n}\n\n\
            impl<N: T<5>> R<N> {\n    pub fn main(&self) {\n    }\n}\n\nimpl T<3> for Q {}\n\npub fn h() {\n    fn own() {\n    }\n}\n";
        let found = declarations(text, Language::Rattle);
        let shown: Vec<(Option<&str>, &str)> =
            found.iter().map(|declared| (declared.owner, declared.name)).collect();
        let expected = [
            (None, "T"),
            (Some("T"), "C"),
            (Some("T"), "f"),
            (Some("T"), "g"),
            (Some("S"), "f"),
            (Some("R"), "main"),
            (None, "h"),
        ];
        assert_eq!(shown, expected);
        assert_eq!(found[0].kind, Kind::Trait);
        assert!(found[1..6].iter().all(|member| member.is_inner() && !member.entry));
        assert!(text[found[2].range.clone()].ends_with("ensures { a self };"));
        assert!(text[found[4].range.clone()].ends_with("let x = 1;\n    }"));
    }

    #[test]
    fn ends_of_items() {
        let text =
            "const C: &[u8; 2] =\n    b  ;\n\nfn f(a: [u8; 2])\n    ensures { a }\n{\n    C;\n}\n";
        let found = declarations(text, Language::Rattle);
        let ends: Vec<&str> = found.iter().map(|item| &text[item.range.clone()]).collect();
        assert_eq!(
            ends,
            ["const C: &[u8; 2] =\n    b  ;", text[text.find("fn").unwrap()..].trim()]
        );
    }
}
