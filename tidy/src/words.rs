//! The words of a source: its names, without comments and quoted texts.

use std::ops::Range;

#[derive(Clone, Copy, PartialEq, Eq)]
pub enum Language {
    Antt,
    Rattle,
}

/// What joins a word to something before it: a field or a name behind a path has one.
#[derive(Clone, Copy, PartialEq, Eq, Debug)]
pub enum Joint {
    None,
    Dot,
    Colons,
}

pub struct Word<'a> {
    pub text: &'a str,
    pub start: usize,
    pub joint: Joint,
    /// Whether the contract of a function holds it.
    pub contract: bool,
}

impl Word<'_> {
    pub fn end(&self) -> usize {
        self.start + self.text.len()
    }
}

/// The text with comments and quoted texts blanked, byte by byte, so that every place stays.
pub fn masked(text: &str, language: Language) -> String {
    let mut bytes = text.as_bytes().to_vec();
    let mut at = 0;
    while at < text.len() {
        let length = match language {
            Language::Antt => comment(text, at, "--", "{-", "-}"),
            Language::Rattle => comment(text, at, "//", "/*", "*/").or(character(text, at)),
        }
        .or(quoted(text, at));
        for byte in &mut bytes[at..at + length.unwrap_or(0)] {
            if *byte != b'\n' {
                *byte = b' ';
            }
        }
        at += length.unwrap_or(text[at..].chars().next().map_or(1, char::len_utf8));
    }
    String::from_utf8_lossy(&bytes).into_owned()
}

/// The length of the comment that begins here. A hyphen within a name begins none.
fn comment(text: &str, at: usize, line: &str, open: &str, close: &str) -> Option<usize> {
    let rest = &text[at..];
    if rest.starts_with(open) {
        return Some(rest.find(close).map_or(rest.len(), |end| end + close.len()));
    }
    let in_name = line == "--" && text[..at].chars().next_back().is_some_and(|c| !is_break(c));
    (rest.starts_with(line) && !in_name).then(|| rest.find('\n').unwrap_or(rest.len()))
}

/// The length of the quoted text that begins here.
fn quoted(text: &str, at: usize) -> Option<usize> {
    let rest = text[at..].strip_prefix('"')?;
    let mut escaped = false;
    for (place, c) in rest.char_indices() {
        if c == '"' && !escaped {
            return Some(place + 2);
        }
        escaped = c == '\\' && !escaped;
    }
    Some(rest.len() + 1)
}

/// The length of the quoted character that begins here.
fn character(text: &str, at: usize) -> Option<usize> {
    let rest = text[at..].strip_prefix('\'')?;
    let escape = usize::from(rest.starts_with('\\'));
    let c = rest[escape..].chars().next()?;
    rest[escape + c.len_utf8()..].starts_with('\'').then(|| escape + c.len_utf8() + 2)
}

/// Whether no name of antt holds the character.
fn is_break(c: char) -> bool {
    c.is_whitespace() || "(){}[],;.@\"«»".contains(c)
}

fn is_break_of_rattle(c: char) -> bool {
    !c.is_ascii_alphanumeric() && c != '_'
}

/// The words of a masked text, in their order.
pub fn words(text: &str, language: Language) -> Vec<Word<'_>> {
    if language == Language::Antt {
        return cut(text, 0..text.len(), is_break, false);
    }
    let mut found = Vec::new();
    let mut at = 0;
    for contract in contracts(text) {
        found.extend(cut(text, at..contract.start, is_break_of_rattle, false));
        found.extend(cut(text, contract.clone(), is_break, true));
        at = contract.end;
    }
    found.extend(cut(text, at..text.len(), is_break_of_rattle, false));
    found
}

/// The words of a part of a text, and `[]`, which is a name.
fn cut(
    text: &str,
    part: Range<usize>,
    is_break: fn(char) -> bool,
    contract: bool,
) -> Vec<Word<'_>> {
    let mut found = Vec::new();
    let mut at = part.start;
    while at < part.end {
        let rest = &text[at..part.end];
        let length =
            if rest.starts_with("[]") { 2 } else { rest.find(is_break).unwrap_or(rest.len()) };
        if length > 0 {
            found.push(Word {
                text: &rest[..length],
                start: at,
                joint: joint(&text[..at]),
                contract,
            });
            at += length;
        } else {
            at += rest.chars().next().map_or(1, char::len_utf8);
        }
    }
    found
}

/// What a text ends with; two dots are a range.
fn joint(before: &str) -> Joint {
    if before.ends_with("::") {
        Joint::Colons
    } else if before.ends_with('.') && !before.ends_with("..") {
        Joint::Dot
    } else {
        Joint::None
    }
}

/// Where the contracts of functions and the ghost members of types and traits stand: what is between the braces of `requires` and `ensures`, which may
/// have a name, of `ghost invariant`, of `ghost NAME:` and of `ghost NAME =`.
fn contracts(text: &str) -> Vec<Range<usize>> {
    let mut found = Vec::new();
    for word in cut(text, 0..text.len(), is_break_of_rattle, false) {
        let Some(open) = text[word.end()..].find('{').map(|place| word.end() + place) else {
            break;
        };
        let name = text[word.end()..open].trim();
        let named = |name: &str| !name.contains(is_break_of_rattle);
        let clause = match word.text {
            "requires" | "ensures" => named(name),
            "ghost" => {
                let invariant = name.strip_prefix("invariant").map(str::trim_start);
                let member = name.strip_suffix([':', '=']).map(str::trim_end);
                invariant.is_some_and(named) || member.is_some_and(named)
            }
            _ => false,
        };
        if clause {
            found.push(open + 1..closing(text, open));
        }
    }
    found
}

/// The place of the brace that closes the one at `open`.
pub fn closing(text: &str, open: usize) -> usize {
    let mut depth = 0;
    for (place, c) in text[open..].char_indices() {
        match c {
            '{' => depth += 1,
            '}' if depth == 1 => return open + place,
            '}' => depth -= 1,
            _ => {}
        }
    }
    text.len()
}

/// The line, counted from 1, of a place.
pub fn line_at(text: &str, place: usize) -> usize {
    text[..place].matches('\n').count() + 1
}

/// What stands in the name of an operator for an argument.
pub const HOLE: char = '◌';

/// The parts of a name between its places for arguments: `≡` of `◌≡◌`.
pub fn parts(name: &str) -> impl Iterator<Item = &str> {
    name.split(HOLE).filter(|part| !part.is_empty())
}

#[cfg(test)]
mod tests {
    use super::*;

    fn texts(text: &str, language: Language) -> Vec<&str> {
        words(text, language).iter().map(|word| word.text).collect()
    }

    #[test]
    fn comments_and_texts_are_blank() {
        assert_eq!(masked("a -- b\nc", Language::Antt), "a     \nc");
        assert_eq!(masked("a--b \"x -- y\" c", Language::Antt), "a--b          c");
        assert_eq!(masked("a // b\n'\"' c '{'", Language::Rattle), "a     \n    c    ");
    }

    #[test]
    fn names_of_antt() {
        let found = texts("f (x ∷ []) = λ i. c.args.name ≡ y_a-is'", Language::Antt);
        assert_eq!(
            found,
            ["f", "x", "∷", "[]", "=", "λ", "i", "c", "args", "name", "≡", "y_a-is'"]
        );
    }

    #[test]
    fn contracts_are_antt() {
        let text =
            "fn f(a: u8) -> u8\n    ensures moves { result ≡ place-of a.now }\n{\n    a-b::c\n}\n";
        let found = words(text, Language::Rattle);
        let contract: Vec<&str> =
            found.iter().filter(|word| word.contract).map(|word| word.text).collect();
        assert_eq!(contract, ["result", "≡", "place-of", "a", "now"]);
        assert!(found
            .iter()
            .any(|word| word.text == "c" && word.joint == Joint::Colons && !word.contract));
    }

    #[test]
    fn ghost_members_are_antt() {
        let text = "ghost use a.B.{c};\nstruct S {\n    ghost size: { a ≡ b },\n    ghost invariant low { d ≤ e },\n}\n\
            impl T for S {\n    ghost view = { f-g };\n    ghost invariant = { h };\n    fn i() {}\n}\n";
        let found = words(text, Language::Rattle);
        let ghost: Vec<&str> =
            found.iter().filter(|word| word.contract).map(|word| word.text).collect();
        assert_eq!(ghost, ["a", "≡", "b", "d", "≤", "e", "f-g", "h"]);
    }

    #[test]
    fn operators_have_holes() {
        assert_eq!(parts("◌among◌").collect::<Vec<_>>(), ["among"]);
        assert_eq!(parts("read_text").collect::<Vec<_>>(), ["read_text"]);
    }

    #[test]
    fn lines_are_counted_from_one() {
        assert_eq!(line_at("a\nb", 0), 1);
        assert_eq!(line_at("a\nb", 2), 2);
    }
}
