//! What the documents put between backquotes.

use crate::tree::Tree;

pub struct Span<'a> {
    pub path: &'a str,
    pub line: usize,
    pub text: &'a str,
}

/// The spans of every document, blocks of code left out.
pub fn spans(tree: &Tree) -> Vec<Span<'_>> {
    let documents = tree.iter().filter(|(path, _)| path.ends_with(".md"));
    documents.flat_map(|(path, text)| of_document(path, text)).collect()
}

fn of_document<'a>(path: &'a str, text: &'a str) -> Vec<Span<'a>> {
    let mut found = Vec::new();
    let mut fenced = false;
    for (place, line) in text.lines().enumerate() {
        if line.trim_start().starts_with("```") {
            fenced = !fenced;
        } else if !fenced {
            let texts = line.split('`').skip(1).step_by(2);
            found.extend(texts.map(|text| Span { path, line: place + 1, text }));
        }
    }
    found
}

#[cfg(test)]
mod tests {
    use super::*;

    #[test]
    fn blocks_of_code_are_left_out() {
        let tree = Tree::of(&[("docs/A.md", "a `b` c `d e`\n```\n`f`\n```\n`g`\n")]);
        let found: Vec<(usize, &str)> =
            spans(&tree).iter().map(|span| (span.line, span.text)).collect();
        assert_eq!(found, [(1, "b"), (1, "d e"), (5, "g")]);
    }
}
