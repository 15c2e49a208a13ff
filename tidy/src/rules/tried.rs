//! The wrong answers that docs/PROMISES.md names and the must-fail edits are the same.

use crate::fault::Fault;
use crate::tree::{crate_of, Tree};
use std::collections::BTreeSet;

const PROMISES: &str = "docs/PROMISES.md";

/// A must-fail edit: its crate and its name.
type Edit<'a> = (&'a str, &'a str);

pub fn faults(tree: &Tree) -> Vec<Fault> {
    let mut found = Vec::new();
    let mut named = BTreeSet::new();
    for (place, line) in tree.text(PROMISES).unwrap_or("").lines().enumerate() {
        for (crate_name, name) in edits_named(line) {
            if !tree.has(&path((crate_name, name))) {
                let what = format!("{crate_name} has no must-fail edit {name}");
                found.push(Fault::new(PROMISES, place + 1, what));
            }
            named.insert((crate_name, name));
        }
    }
    let edits = tree.iter().filter_map(|(path, _)| edit_of(path));
    for edit in edits.filter(|edit| !named.contains(edit)) {
        let what = format!("{} is not named behind its folder in {PROMISES}", edit.1);
        found.push(Fault::new(&path(edit), 1, what));
    }
    found
}

fn path((crate_name, name): Edit) -> String {
    format!("crates/{crate_name}/must-fail/{name}.edit")
}

fn edit_of(path: &str) -> Option<Edit<'_>> {
    let name = path.strip_suffix(".edit")?.rsplit('/').next()?;
    Some((crate_of(path)?, name))
}

/// The edits that a line names: a folder, a colon, and names in code form, with commas and words in italics between them.
fn edits_named(line: &str) -> Vec<Edit<'_>> {
    let mut found = Vec::new();
    let mut folder = None;
    for (place, part) in line.split('`').enumerate() {
        if place % 2 == 0 {
            let mut between = part.split('*').step_by(2).flat_map(str::chars);
            folder = folder.filter(|_| between.all(|c| ":, ".contains(c)));
        } else if let Some(crate_name) = folder_of(part) {
            folder = Some(crate_name);
        } else {
            found.extend(folder.map(|crate_name| (crate_name, part)));
        }
    }
    found
}

/// The crate whose folder of must-fail edits it is.
fn folder_of(text: &str) -> Option<&str> {
    text.strip_prefix("crates/")?.strip_suffix("/must-fail")
}

#[cfg(test)]
mod tests {
    use super::*;

    fn whats(promises: &str) -> Vec<String> {
        let tree = Tree::of(&[
            (PROMISES, promises),
            ("crates/a/must-fail/one_off.edit", ""),
            ("crates/a/must-fail/row_lost.edit", ""),
            ("crates/b/must-fail/one_off.edit", ""),
        ]);
        faults(&tree).iter().map(Fault::to_string).collect()
    }

    #[test]
    fn each_edit_is_named_behind_its_folder() {
        let all = "`law-is` | `crates/a/must-fail`: `one_off`, *two off*, `row_lost`. Of `a`: `law-is` |\n`crates/b/must-fail`: *a*, `one_off`; those of `a`\n";
        assert!(whats(all).is_empty());
        let less = all.replace(", `row_lost`", "");
        let expected = ["crates/a/must-fail/row_lost.edit:1: row_lost is not named behind its folder in docs/PROMISES.md"];
        assert_eq!(whats(&less), expected);
        assert_eq!(whats(&all.replace("crates/b", "crates/a")).len(), 1);
    }

    #[test]
    fn each_name_behind_a_folder_is_an_edit() {
        let more = "`crates/a/must-fail`: `one_off`, `row_lost`\n`crates/b/must-fail`: `one_off`, `row_lost`\n";
        assert_eq!(whats(more), ["docs/PROMISES.md:2: b has no must-fail edit row_lost"]);
    }
}
