//! crates.txt: what a crate lists it names, or it touches one of its types; and each crate stands after those that it lists.

use crate::fault::Fault;
use crate::source::Source;
use crate::tree::{crate_of, Tree};
use crate::types::Types;
use crate::words::{Joint, Language};
use std::collections::{BTreeMap, BTreeSet};

const LIST: &str = "crates.txt";

/// Libraries of the kit that may be listed, and have no line.
const KIT: [&str; 3] = ["arrayvec", "io", "memchr"];

struct Entry<'a> {
    line: usize,
    name: &'a str,
    /// What stands before the colon: the name, and `staticlib` behind that of a static library.
    head: &'a str,
    listed: Vec<&'a str>,
}

pub fn faults(tree: &Tree, sources: &[Source]) -> Vec<Fault> {
    let touched = touched(sources);
    let nothing = Touched::default();
    let mut found = Vec::new();
    let mut above = BTreeSet::new();
    for entry in entries(tree.text(LIST).unwrap_or("")) {
        let touched = touched.get(entry.name).unwrap_or(&nothing);
        let mut wrong = place_faults(tree, &entry, &above);
        wrong.extend(use_faults(tree, &entry, touched));
        found.extend(wrong.into_iter().map(|what| Fault::new(LIST, entry.line, what)));
        above.insert(entry.name);
    }
    found.extend(unlisted(tree, &above));
    found
}

/// What a crate uses of others, itself left out.
#[derive(Default)]
struct Touched<'a> {
    /// The crates that it names.
    named: BTreeSet<&'a str>,
    /// The crates whose types it makes, gets or reaches without naming them: it may list these too.
    reached: BTreeSet<&'a str>,
}

impl Touched<'_> {
    fn has(&self, crate_name: &str) -> bool {
        self.named.contains(crate_name) || self.reached.contains(crate_name)
    }
}

fn entries(list: &str) -> Vec<Entry<'_>> {
    list.lines().enumerate().filter_map(|(place, line)| entry(place + 1, line)).collect()
}

fn entry(line: usize, text: &str) -> Option<Entry<'_>> {
    let (head, listed) = text.split('#').next()?.split_once(':')?;
    let name = head.split_whitespace().next()?;
    Some(Entry { line, name, head: head.trim(), listed: listed.split_whitespace().collect() })
}

fn touched<'a>(sources: &'a [Source]) -> BTreeMap<&'a str, Touched<'a>> {
    let types = Types::of(sources);
    let mut found: BTreeMap<&str, Touched> = BTreeMap::new();
    for source in sources {
        let touched = found.entry(source.crate_name).or_default();
        touched.named.extend(modules_named(source.text));
        if source.language == Language::Rattle {
            touched.named.extend(paths_named(source));
            touched.reached.extend(types.crates_touched(source));
        }
        touched.named.remove(source.crate_name);
        touched.reached.remove(source.crate_name);
    }
    found
}

/// The crates of `Rattle.CRATE.`, the crate itself among them.
fn modules_named(text: &str) -> impl Iterator<Item = &str> {
    text.split("Rattle.").skip(1).filter_map(|rest| {
        let end = rest.find(|c: char| !c.is_ascii_alphanumeric() && c != '_')?;
        rest[end..].starts_with('.').then(|| &rest[..end])
    })
}

/// What heads a path of the code.
fn paths_named<'a>(source: &'a Source) -> impl Iterator<Item = &'a str> {
    let head = |text: &'a str| text.split("::").next().unwrap_or(text);
    let imported =
        source.imports.iter().filter(|import| !import.ghost).map(move |import| head(import.path));
    let heads = source.words.iter().filter(|word| !word.contract && word.joint == Joint::None);
    imported.chain(
        heads.filter(|word| source.text[word.end()..].starts_with("::")).map(|word| word.text),
    )
}

/// A line for each folder, once, after the lines of all that it lists.
fn place_faults(tree: &Tree, entry: &Entry, above: &BTreeSet<&str>) -> Vec<String> {
    let name = entry.name;
    let mut wrong = Vec::new();
    if above.contains(name) {
        wrong.push(format!("{name} has a line above"));
    }
    if !tree.has(&format!("crates/{name}")) {
        wrong.push(format!("{name} has no folder crates/{name}"));
    }
    let late = |listed: &&str| !KIT.contains(listed) && !above.contains(listed);
    let late: Vec<&str> = entry.listed.iter().copied().filter(late).collect();
    if !late.is_empty() {
        wrong.push(format!("{name} lists {}, no line above", late.join(", ")));
    }
    wrong
}

/// What is listed is used, and what is named is listed, once.
fn use_faults(tree: &Tree, entry: &Entry, touched: &Touched) -> Vec<String> {
    let name = entry.name;
    let mut wrong = Vec::new();
    let idle: Vec<&str> =
        entry.listed.iter().copied().filter(|listed| !touched.has(listed)).collect();
    if !idle.is_empty() {
        wrong.push(format!("{name} lists {}, named nowhere", idle.join(", ")));
    }
    let listable = |named: &&&str| KIT.contains(*named) || tree.has(&format!("crates/{named}"));
    for named in touched.named.iter().filter(listable) {
        if entry.listed.iter().filter(|listed| *listed == named).count() != 1 {
            wrong.push(format!("{name} names {named} and does not list it once"));
        }
    }
    wrong
}

fn folders(tree: &Tree) -> BTreeSet<&str> {
    tree.iter().filter_map(|(path, _)| crate_of(path)).collect()
}

fn unlisted(tree: &Tree, listed: &BTreeSet<&str>) -> Vec<Fault> {
    let last = tree.text(LIST).unwrap_or("").lines().count().max(1);
    let fault = |name: &&str| Fault::new(LIST, last, format!("crates/{name} has no line"));
    folders(tree).difference(listed).map(fault).collect()
}

/// The list as it should be: each crate with what it uses, after all of these.
pub fn corrected(tree: &Tree, sources: &[Source]) -> String {
    let list = tree.text(LIST).unwrap_or("");
    let touched = touched(sources);
    let mut order: Vec<&str> = Vec::new();
    let mut heads: BTreeMap<&str, &str> = BTreeMap::new();
    for entry in entries(list) {
        place(entry.name, &touched, &mut order);
        heads.insert(entry.name, entry.head);
    }
    let comments = list.lines().filter(|line| line.starts_with('#')).map(str::to_string);
    let line = |name: &&str| {
        let uses = |other: &&&str| touched.get(*name).is_some_and(|touched| touched.has(other));
        let known = order.iter().chain(&KIT).filter(uses);
        let head = heads.get(name).unwrap_or(name);
        known.fold(format!("{head}:"), |line, other| format!("{line} {other}"))
    };
    comments.chain(order.iter().map(line)).map(|line| line + "\n").collect()
}

/// Puts a crate in its order, after those that it uses.
fn place<'a>(name: &'a str, touched: &BTreeMap<&'a str, Touched<'a>>, order: &mut Vec<&'a str>) {
    let Some(uses) = touched.get(name).filter(|_| !order.contains(&name)) else { return };
    for other in uses.named.union(&uses.reached) {
        place(other, touched, order);
    }
    order.push(name);
}

#[cfg(test)]
mod tests {
    use super::*;
    use crate::source::mask;

    fn whats(files: &[(&str, &str)]) -> Vec<String> {
        let tree = Tree::of(files);
        let masked = mask(&tree);
        faults(&tree, &masked.sources()).iter().map(Fault::to_string).collect()
    }

    const LOW: (&str, &str) = ("crates/low/src/lib.rt", "pub fn f() {\n}\n");
    const HIGH: (&str, &str) = (
        "crates/high/src/lib.rt",
        "ghost use Rattle.std.specs.Prelude.{◌≡◌};\nghost use Rattle.high.specs.B.{b};\nghost use Rattle.low.specs.A.{a};\nfn g() {\n    io::print(1)\n}\n",
    );

    #[test]
    fn what_is_named_is_listed() {
        assert!(whats(&[("crates.txt", "# list\nlow:\nhigh: low io\n"), LOW, HIGH]).is_empty());
    }

    #[test]
    fn static_libraries() {
        let text = "pub fn g() {\n    low::f()\n}\n";
        let library = ("crates/low_c/src/lib.rt", text);
        let list = |text| ("crates.txt", text);
        assert!(whats(&[list("low:\nlow_c staticlib: low\n"), LOW, library]).is_empty());
        assert_eq!(
            whats(&[list("low:\nlow_c staticlib:\n"), LOW, library]),
            ["crates.txt:2: low_c names low and does not list it once"]
        );
        let tree = Tree::of(&[list("low_c staticlib:\nlow:\n"), LOW, library]);
        let masked = mask(&tree);
        assert_eq!(corrected(&tree, &masked.sources()), "low:\nlow_c staticlib: low\n");
    }

    #[test]
    fn what_an_attribute_names_is_listed() {
        let text = "#[tactic(auto, using(low::proofs::A::law))]\nfn g() {\n}\n";
        let high = ("crates/high/src/lib.rt", text);
        let found = whats(&[("crates.txt", "low:\nhigh:\n"), LOW, high]);
        assert_eq!(found, ["crates.txt:2: high names low and does not list it once"]);
    }

    #[test]
    fn listed_and_not_named() {
        let found =
            whats(&[("crates.txt", "high:\nlow: high\n"), LOW, ("crates/high/src/lib.rt", "")]);
        assert_eq!(found, ["crates.txt:2: low lists high, named nowhere"]);
    }

    #[test]
    fn named_and_not_listed() {
        let found = whats(&[("crates.txt", "low:\nhigh: io\n"), LOW, HIGH]);
        assert_eq!(found, ["crates.txt:2: high names low and does not list it once"]);
        let found = whats(&[("crates.txt", "low:\nhigh: low\n"), LOW, HIGH]);
        assert_eq!(found, ["crates.txt:2: high names io and does not list it once"]);
    }

    #[test]
    fn a_name_in_a_comment_is_none() {
        let found = whats(&[
            ("crates.txt", "low:\nhigh: low\n"),
            LOW,
            ("crates/high/src/lib.rt", "// low::f\n"),
        ]);
        assert_eq!(found, ["crates.txt:2: high lists low, named nowhere"]);
    }

    #[test]
    fn touched_may_be_listed() {
        let low = ("crates/low/src/lib.rt", "pub struct Low {\n    pub a: u8,\n}\n");
        let high =
            ("crates/high/src/lib.rt", "use low::Low;\npub struct High {\n    pub low: Low,\n}\n");
        let top =
            ("crates/top/src/lib.rt", "use high::High;\nfn f(x: u8) {\n    High { low: x }\n}\n");
        assert!(
            whats(&[("crates.txt", "low:\nhigh: low\ntop: low high\n"), low, high, top]).is_empty()
        );
    }

    #[test]
    fn order_of_the_lines() {
        let found = whats(&[("crates.txt", "high: low io\nlow:\n"), LOW, HIGH]);
        assert_eq!(found, ["crates.txt:1: high lists low, no line above"]);
    }

    #[test]
    fn lines_and_folders() {
        let found = whats(&[("crates.txt", "low:\ngone:\n"), LOW, HIGH]);
        assert_eq!(
            found,
            [
                "crates.txt:2: gone has no folder crates/gone",
                "crates.txt:2: crates/high has no line"
            ]
        );
    }

    #[test]
    fn the_corrected_list() {
        let tree = Tree::of(&[("crates.txt", "# list\nhigh:\nlow: high\n"), LOW, HIGH]);
        let masked = mask(&tree);
        assert_eq!(corrected(&tree, &masked.sources()), "# list\nlow:\nhigh: low io\n");
    }
}
