//! The must-fail edits: what each puts in the place of what.

use crate::tree::{crate_of, Tree};

pub struct Edit {
    /// The file that it changes.
    pub path: String,
    pub new: String,
}

pub fn edits(tree: &Tree) -> Vec<Edit> {
    let edits = tree.iter().filter(|(path, _)| path.ends_with(".edit"));
    edits
        .flat_map(|(path, text)| crate_of(path).map_or(Vec::new(), |name| read(name, text)))
        .collect()
}

fn read(crate_name: &str, text: &str) -> Vec<Edit> {
    let mut path = String::new();
    let mut found = Vec::new();
    for line in text.lines() {
        if let Some(file) = line.strip_prefix("file:") {
            path = format!("crates/{crate_name}/{}", file.trim());
        } else if let Some(new) = line.strip_prefix("new:") {
            found.push(Edit { path: path.clone(), new: new.to_string() });
        }
    }
    found
}

#[cfg(test)]
mod tests {
    use super::*;

    #[test]
    fn each_new_line_is_of_the_file_above() {
        let text = "file: specs/A.antt\nold: a\nnew: b\nfile: src/lib.rt\nold: c\nnew: d\n";
        let found = edits(&Tree::of(&[("crates/x/must-fail/y.edit", text)]));
        let shown: Vec<(&str, &str)> =
            found.iter().map(|edit| (edit.path.as_str(), edit.new.trim())).collect();
        assert_eq!(shown, [("crates/x/specs/A.antt", "b"), ("crates/x/src/lib.rt", "d")]);
    }
}
