//! The lines of a source that bring names in.

use crate::words::{closing, Language};
use std::ops::Range;

pub struct Item<'a> {
    /// The name where it is declared.
    pub name: &'a str,
    /// The name by which the file calls it.
    pub local: &'a str,
    pub range: Range<usize>,
}

pub struct Import<'a> {
    /// The whole statement, with the end of its line.
    pub range: Range<usize>,
    /// `pub use` passes its names on.
    pub public: bool,
    /// `ghost use` brings names into contracts, `use` of a .rt file into code.
    pub ghost: bool,
    /// The module, or of a Rattle path all but its last name.
    pub path: &'a str,
    /// Whether the items are the module itself.
    pub module: bool,
    /// The block of a type or a trait that it stands in and brings its names into.
    pub block: Option<Range<usize>>,
    pub items: Vec<Item<'a>>,
}

/// The imports of a masked text.
pub fn imports(text: &str, language: Language) -> Vec<Import<'_>> {
    let mut found = Vec::new();
    let mut at = 0;
    for line in text.split_inclusive('\n') {
        let start = at;
        at += line.len();
        if let Some(marks) = marks(line, language) {
            found.push(import(text, start, start + marks.len() + 4, language));
        }
    }
    found
}

/// What stands before the `use` of a line that brings names in. `ghost use` may be indented.
fn marks(line: &str, language: Language) -> Option<&str> {
    let (marks, _) = line.split_once("use ")?;
    let ghost = language == Language::Rattle && marks.trim_start() == "ghost ";
    (ghost || ["", "pub ", "unfoldable pub "].contains(&marks)).then_some(marks)
}

/// The block around a place: between the lines at the margin.
fn block(text: &str, at: usize) -> Range<usize> {
    let margin = |end: &usize| text[end + 1..].starts_with(|c: char| !c.is_whitespace());
    let mut ends = text.match_indices('\n').map(|(end, _)| end).filter(margin);
    let start = text[..at].match_indices('\n').map(|(end, _)| end).rfind(margin);
    start.unwrap_or(0)..ends.find(|end| *end >= at).unwrap_or(text.len())
}

/// The import that stands at `start` and whose path begins at `body`.
fn import(text: &str, start: usize, body: usize, language: Language) -> Import<'_> {
    let line = body + text[body..].find('\n').unwrap_or(text.len() - body);
    let open = text[body..line].find('{').map(|place| body + place);
    let last = open.map_or(line, |open| closing(text, open));
    let end = text[last..].find('\n').map_or(text.len(), |place| last + place + 1);
    let marks = &text[start..body];
    let ghost = marks.trim_start().starts_with("ghost");
    let block = marks.starts_with(' ').then(|| block(text, start));
    let head = body..open.unwrap_or(text[..line].trim_end().trim_end_matches(';').len());
    let (path, module, items) = match open {
        Some(open) => (trim(text, head), false, listed(text, open + 1..last)),
        None if language == Language::Rattle && !ghost => rattle_item(text, head),
        None => {
            let item = item(text, head);
            (item.name, true, vec![item])
        }
    };
    let public = marks.contains("pub");
    Import { range: start..end, public, ghost, path, module, block, items }
}

/// A path without the dot or the colons before its brace.
fn trim(text: &str, path: Range<usize>) -> &str {
    text[path].trim().trim_end_matches(['.', ':'])
}

fn listed(text: &str, part: Range<usize>) -> Vec<Item<'_>> {
    let mut found = Vec::new();
    let mut at = part.start;
    for piece in text[part].split(',') {
        if !piece.trim().is_empty() {
            found.push(item(text, at..at + piece.len()));
        }
        at += piece.len() + 1;
    }
    found
}

/// `name`, `name as local` or `path.name`.
fn item(text: &str, part: Range<usize>) -> Item<'_> {
    let piece = &text[part.clone()];
    let start = part.start + (piece.len() - piece.trim_start().len());
    let range = start..start + piece.trim().len();
    let (name, local) =
        piece.split_once(" as ").map_or((piece.trim(), None), |(a, b)| (a.trim(), Some(b.trim())));
    let local = local.unwrap_or_else(|| name.rsplit('.').next().unwrap_or(name));
    Item { name, local: local.trim_matches(['«', '»']), range }
}

/// `use a::B`: the path `a` and the item `B`.
fn rattle_item(text: &str, head: Range<usize>) -> (&str, bool, Vec<Item<'_>>) {
    match text[head.clone()].rfind("::") {
        Some(place) => {
            let last = head.start + place;
            (text[head.start..last].trim(), false, vec![item(text, last + 2..head.end)])
        }
        None => (text[head.clone()].trim(), true, vec![item(text, head)]),
    }
}

#[cfg(test)]
mod tests {
    use super::*;

    fn shown(text: &str, language: Language) -> Vec<String> {
        let show = |import: &Import| {
            let items: Vec<String> =
                import.items.iter().map(|item| format!("{}={}", item.local, item.name)).collect();
            format!("{} {}", import.path, items.join(" "))
        };
        imports(text, language).iter().map(show).collect()
    }

    #[test]
    fn of_antt() {
        let text = "use a.B.{c, ◌≡◌ as ◌is◌}\nuse a.D as d\nuse a.E\nunfoldable pub use a.F.{\n  g,\n  h,\n}\nreuse x = y\n";
        let expected = ["a.B c=c ◌is◌=◌≡◌", "a.D d=a.D", "a.E E=a.E", "a.F g=g h=h"];
        assert_eq!(shown(text, Language::Antt), expected);
        assert_eq!(
            imports(text, Language::Antt)[3].range,
            text.find("unfoldable").unwrap()..text.find("reuse").unwrap()
        );
    }

    #[test]
    fn of_rattle() {
        let text = "use record::Edit;\nghost use a.B.{c};\nghost use a.C as d;\n";
        assert_eq!(shown(text, Language::Rattle), ["record Edit=Edit", "a.B c=c", "a.C d=a.C"]);
    }

    #[test]
    fn of_a_block() {
        let text = "ghost use a.A.{b};\n\nimpl S {\n    ghost use a.B.{c,\n        d};\n\n    ghost e = { c };\n}\n\nfn f() {\n    use x;\n}\n";
        assert_eq!(shown(text, Language::Rattle), ["a.A b=b", "a.B c=c d=d"]);
        let found = imports(text, Language::Rattle);
        assert_eq!(found[0].block, None);
        let block = text[found[1].block.clone().unwrap()].trim();
        assert!(block.starts_with("impl S {") && block.ends_with("ghost e = { c };"));
        assert!(shown("  use a.B.{c}\n", Language::Antt).is_empty());
    }
}
