//! Declarations that nothing uses and no document names.

use crate::declared::{Declaration, Kind};
use crate::edits::Edit;
use crate::fault::Fault;
use crate::source::Source;
use crate::spans::Span;
use crate::uses::Uses;
use crate::words::{parts, words, Joint, Language, HOLE};
use std::collections::HashSet;

const DEAD: &str = "is used nowhere, and no document names it";
const OWN: &str = "is pub, and its own file alone uses it";

pub fn faults(sources: &[Source], edits: &[Edit], spans: &[Span]) -> Vec<Fault> {
    let uses = Uses::of(sources);
    let words = spans.iter().flat_map(|span| words(span.text, Language::Antt));
    let told: HashSet<&str> = words.map(|word| word.text).collect();
    let mut found = Vec::new();
    for source in sources {
        let wrong = match source.language {
            Language::Antt => antt_dead(source, edits, &told, &uses),
            Language::Rattle => code_dead(sources, source, edits, spans, &uses),
        };
        for (declared, wrong) in wrong {
            let what = format!("{} {wrong}", declared.name);
            found.push(Fault::new(source.path, source.line(declared.range.start), what));
        }
    }
    found
}

fn code_dead<'s>(
    sources: &[Source],
    source: &'s Source,
    edits: &[Edit],
    spans: &[Span],
    uses: &Uses,
) -> Vec<(&'s Declaration<'s>, &'static str)> {
    let wrong = |declared: &Declaration| match declared {
        _ if code_told(source, declared, spans) || edited(source, declared, edits) => None,
        _ if declared.is_inner() => method_wrong(sources, source, declared),
        _ => code_wrong(sources, source, declared, uses),
    };
    let found = source.declarations.iter().filter(|declared| may_die(source, declared));
    found.filter_map(|declared| Some((declared, wrong(declared)?))).collect()
}

/// Whether something has to use it. C, the system or the kit may: the kit takes the public names of a function's proof. Of what lies within another
/// declaration a public method has to be called; that it is public tells it from a trait's.
fn may_die(source: &Source, declared: &Declaration) -> bool {
    let taken = declared.entry || declared.public && source.proves_function;
    let method = declared.kind == Kind::Member && declared.public;
    !taken && (method || !declared.is_inner())
}

/// Whether a must-fail edit of the crate names it.
fn edited(source: &Source, declared: &Declaration, edits: &[Edit]) -> bool {
    let of_crate = format!("crates/{}/", source.crate_name);
    let mut edits = edits.iter().filter(|edit| edit.path.starts_with(&of_crate));
    edits.any(|edit| words(&edit.new, Language::Antt).iter().any(|word| word.text == declared.name))
}

/// The definitions and laws of a file that nothing uses, but for those of them that are dead.
fn antt_dead<'s>(
    source: &'s Source,
    edits: &[Edit],
    told: &HashSet<&str>,
    uses: &Uses,
) -> Vec<(&'s Declaration<'s>, &'static str)> {
    let found: Vec<&Declaration> =
        source.declarations.iter().filter(|declared| may_die(source, declared)).collect();
    let names: Vec<Vec<&str>> = found.iter().map(|declared| names_of(source, declared)).collect();
    let elsewhere = |declared: &Declaration| {
        told.contains(declared.name)
            || edited(source, declared, edits)
            || used_elsewhere(source, declared, uses)
    };
    let mut live: Vec<bool> = found.iter().map(|declared| elsewhere(declared)).collect();
    // which one names which
    let mut citations = Vec::new();
    for word in source.words.iter().filter(|word| word.joint == Joint::None) {
        let holds = |at: &usize| found[*at].range.contains(&word.start);
        let named = |at: &usize| names[*at].iter().any(|name| names_it(word.text, name));
        let cited: Vec<usize> = (0..found.len()).filter(|at| named(at) && !holds(at)).collect();
        if cited.is_empty() || is_fixity(source, word.start) {
            continue;
        }
        let holders: Vec<usize> = (0..found.len()).filter(holds).collect();
        for at in cited {
            live[at] |= holders.is_empty();
            citations.extend(holders.iter().map(|holder| (*holder, at)));
        }
    }
    while let Some((_, at)) = citations.iter().find(|(holder, at)| live[*holder] && !live[*at]) {
        live[*at] = true;
    }
    found.into_iter().zip(live).filter(|(_, live)| !live).map(|(found, _)| (found, DEAD)).collect()
}

/// The name of a definition or a law, and those of the constructors of a data type.
fn names_of<'s>(source: &'s Source, declared: &'s Declaration) -> Vec<&'s str> {
    let inside = |part: &&Declaration| {
        declared.kind == Kind::Data
            && part.kind == Kind::Part
            && declared.range.contains(&part.range.start)
    };
    let parts = source.declarations.iter().filter(inside).map(|part| part.name);
    std::iter::once(declared.name).chain(parts).collect()
}

fn used_elsewhere(source: &Source, declared: &Declaration, uses: &Uses) -> bool {
    let module = source.module();
    let by_part = |part: &str| uses.antt(&format!("{module}.{}", declared.name), part);
    let mut names = names_of(source, declared).into_iter();
    names.any(|name| uses.antt(&module, name) || name != declared.name && by_part(name))
}

/// Whether a word names it, or is a part of it where it is an operator.
fn names_it(text: &str, name: &str) -> bool {
    text == name || name.contains(HOLE) && parts(name).any(|part| part == text.trim_matches(HOLE))
}

/// Whether a line says how tight an operator binds: that is no use.
fn is_fixity(source: &Source, start: usize) -> bool {
    let line = source.text[..start].rfind('\n').map_or(0, |end| end + 1);
    source.text[line..].trim_start().starts_with("infix")
}

/// Code is named in a document with its crate; a type, a trait or a method also without.
fn code_told(source: &Source, declared: &Declaration, spans: &[Span]) -> bool {
    let named = |text: &str| {
        let end = text.find(|c: char| !c.is_ascii_alphanumeric() && c != '_' && c != ':');
        let mut path = text[..end.unwrap_or(text.len())].split("::");
        path.next() == Some(source.crate_name) && path.last() == Some(declared.name)
    };
    let typed = matches!(declared.kind, Kind::Type | Kind::Trait | Kind::Member);
    let bare = |text: &str| typed && text == declared.name;
    spans.iter().any(|span| named(span.text) || bare(span.text))
}

/// What is wrong with public code: a function that its own file alone uses needs no mark, unlike a type, which contracts hand out.
fn code_wrong(
    sources: &[Source],
    source: &Source,
    declared: &Declaration,
    uses: &Uses,
) -> Option<&'static str> {
    let named = |other: &Source| {
        let outside = |start: usize| other.path != source.path || !declared.range.contains(&start);
        let mut words =
            other.words.iter().filter(|word| !word.contract && word.joint != Joint::Dot);
        words.any(|word| word.text == declared.name && outside(word.start))
    };
    let mut beside = sources.iter().filter(|other| {
        other.crate_name == source.crate_name
            && other.language == Language::Rattle
            && other.path != source.path
    });
    let elsewhere = uses.code(source.crate_name, declared.name)
        || uses.type_of(source.crate_name, declared.name)
        || beside.any(named);
    match (elsewhere, named(source)) {
        (true, _) => None,
        (false, false) => Some(DEAD),
        (false, true) => (declared.public && declared.kind == Kind::Function).then_some(OWN),
    }
}

/// What is wrong with a public method: nothing calls one of its name.
fn method_wrong(
    sources: &[Source],
    source: &Source,
    declared: &Declaration,
) -> Option<&'static str> {
    let calls = |other: &Source| {
        let outside = |start: usize| other.path != source.path || !declared.range.contains(&start);
        let mut words = other
            .words
            .iter()
            .filter(|word| !word.contract && word.joint != Joint::None && outside(word.start));
        other.language == Language::Rattle && words.any(|word| word.text == declared.name)
    };
    (!sources.iter().any(calls)).then_some(DEAD)
}

#[cfg(test)]
mod tests {
    use super::*;
    use crate::edits::edits;
    use crate::source::mask;
    use crate::spans::spans;
    use crate::tree::Tree;

    fn whats(files: &[(&str, &str)]) -> Vec<String> {
        let tree = Tree::of(files);
        let masked = mask(&tree);
        faults(&masked.sources(), &edits(&tree), &spans(&tree))
            .iter()
            .map(Fault::to_string)
            .collect()
    }

    #[test]
    fn a_law_is_used_where_it_is_brought_in() {
        let law = ("crates/a/proofs/A.antt", "pub f-is : A\nf-is = f-is\n");
        assert_eq!(
            whats(&[law]),
            ["crates/a/proofs/A.antt:1: f-is is used nowhere, and no document names it"]
        );
        assert!(
            whats(&[law, ("crates/b/proofs/B.antt", "use Rattle.a.proofs.A.{f-is}\n")]).is_empty()
        );
        assert!(whats(&[
            law,
            ("crates/a/proofs/B.antt", "use Rattle.a.proofs.A as a\ng = a.f-is\n")
        ])
        .is_empty());
        assert_eq!(
            whats(&[law, ("crates/b/proofs/B.antt", "use Rattle.c.proofs.A.{f-is}\n")]).len(),
            1
        );
        assert!(whats(&[law, ("docs/A.md", "`f-is`")]).is_empty());
        assert!(whats(&[
            law,
            ("crates/a/must-fail/x.edit", "file: specs/X.antt\nold: x\nnew: f-is\n")
        ])
        .is_empty());
    }

    #[test]
    fn laws_that_cite_one_another_alone_are_dead() {
        let laws = "pub f : A\nf = g\n\npub g : A\ng = f\n\npub h : A\nh = g\n";
        assert_eq!(whats(&[("crates/a/proofs/A.antt", laws)]).len(), 3);
        let used = ("crates/b/proofs/B.antt", "use Rattle.a.proofs.A.{h}\n");
        assert!(whats(&[("crates/a/proofs/A.antt", laws), used]).is_empty());
        let used = ("crates/b/proofs/B.antt", "use Rattle.a.proofs.A.{f}\n");
        assert_eq!(whats(&[("crates/a/proofs/A.antt", laws), used]).len(), 1);
    }

    #[test]
    fn a_law_is_used_by_an_attribute() {
        let law = ("crates/a/proofs/A.antt", "pub f_is : A\nf_is = f_is\n");
        let code = |text| ("crates/a/src/lib.rt", text);
        let own = "#[tactic(auto, using(crate::proofs::A::f_is))]\nfn main() {\n}\n";
        assert!(whats(&[law, code(own)]).is_empty());
        let other = "#[tactic(auto, using(b::proofs::A::f_is))]\nfn main() {\n}\n";
        assert_eq!(whats(&[law, code(other)]).len(), 1);
    }

    #[test]
    fn the_kit_takes_the_proof_of_a_function() {
        let proof = "pub returns : goal.returns\nreturns = goal\n\nhelp : A\nhelp = goal\n";
        assert_eq!(
            whats(&[("crates/a/proofs/f/Answers.antt", proof)]),
            ["crates/a/proofs/f/Answers.antt:4: help is used nowhere, and no document names it"]
        );
        let laws = ("crates/a/proofs/Lib.antt", "pub mod Answers\n");
        assert_eq!(whats(&[("crates/a/proofs/Answers.antt", proof), laws]).len(), 2);
    }

    #[test]
    fn a_fixity_is_no_use() {
        let text = "infix 40 ◌in◌\nabbrev pub ◌in◌ : A\nx in y = y\n";
        assert_eq!(whats(&[("crates/a/specs/A.antt", text)]).len(), 1);
        let used = format!("{text}g = 1 in 2\n");
        assert!(whats(&[("crates/a/specs/A.antt", &used)]).is_empty());
    }

    #[test]
    fn a_data_type_is_used_by_its_constructors() {
        let data = ("crates/a/specs/A.antt", "pub data D : Type 0 where\n  one : D\n");
        assert_eq!(whats(&[data]).len(), 1);
        assert!(
            whats(&[data, ("crates/a/proofs/B.antt", "use Rattle.a.specs.A.{one}\n")]).is_empty()
        );
        assert!(
            whats(&[data, ("crates/a/proofs/B.antt", "use Rattle.a.specs.A.D.{one}\n")]).is_empty()
        );
    }

    #[test]
    fn a_function_is_used_by_a_call() {
        let function = ("crates/a/src/lib.rt", "pub fn f() {\n    f()\n}\n");
        assert_eq!(
            whats(&[function]),
            ["crates/a/src/lib.rt:1: f is used nowhere, and no document names it"]
        );
        assert!(
            whats(&[function, ("crates/b/src/lib.rt", "fn main() {\n    a::f()\n}\n")]).is_empty()
        );
        assert_eq!(
            whats(&[function, ("crates/b/src/lib.rt", "fn main() {\n    b::f()\n}\n")]).len(),
            1
        );
        assert!(whats(&[function, ("docs/A.md", "`a::f(x)`")]).is_empty());
        assert_eq!(whats(&[function, ("docs/A.md", "`f`, `a::fg`")]).len(), 1);
        let own = whats(&[("crates/a/src/lib.rt", "pub fn f() {\n}\nfn main() {\n    f()\n}\n")]);
        assert_eq!(own, ["crates/a/src/lib.rt:1: f is pub, and its own file alone uses it"]);
        assert!(whats(&[(
            "crates/a/src/lib.rt",
            "#[unsafe(no_mangle)]\npub extern \"C\" fn f() {\n}\n"
        )])
        .is_empty());
    }

    #[test]
    fn a_function_is_used_with_its_types() {
        let function = ("crates/a/src/part.rt", "pub fn f<const N: usize>() {\n}\n");
        let call = |text| ("crates/b/src/lib.rt", text);
        assert!(whats(&[function, call("fn main() {\n    a::part::f::<N, T>()\n}\n")]).is_empty());
        let imported = call("use a::part;\nfn main() {\n    g(part::f::<5>)\n}\n");
        assert!(whats(&[function, imported]).is_empty());
    }

    #[test]
    fn a_method_is_used_by_a_call() {
        let text = "impl S {\n    pub fn f() {\n    }\n\n    fn g() {\n    }\n}\n";
        let method = ("crates/a/src/lib.rt", text);
        let found = ["crates/a/src/lib.rt:2: f is used nowhere, and no document names it"];
        assert_eq!(whats(&[method]), found);
        let call = |text| ("crates/b/src/lib.rt", text);
        assert!(whats(&[method, call("fn main() {\n    s.f()\n}\n")]).is_empty());
        assert!(whats(&[method, call("fn main() {\n    S::f()\n}\n")]).is_empty());
        assert_eq!(whats(&[method, call("fn main() {\n    f()\n}\n")]), found);
        assert!(whats(&[method, ("docs/A.md", "`a::S::f`")]).is_empty());
        assert!(whats(&[method, ("docs/A.md", "`f`")]).is_empty());
    }

    #[test]
    fn members_of_traits_are_left_alone() {
        let text = "impl U for S {\n    fn f() {\n    }\n}\npub trait T {\n    fn g();\n}\n";
        assert_eq!(
            whats(&[("crates/a/src/lib.rt", text)]),
            ["crates/a/src/lib.rt:5: T is used nowhere, and no document names it"]
        );
    }

    #[test]
    fn a_constant_is_used_below_it() {
        let text = "const C: &[u8] =\n    b\"x; {\";\n\nfn main() {\n    f(C)\n}\n";
        assert!(whats(&[("crates/a/src/main.rt", text)]).is_empty());
        let unused = text.replace("f(C)", "f()");
        assert_eq!(whats(&[("crates/a/src/main.rt", &unused)]).len(), 1);
    }

    #[test]
    fn a_law_is_used_by_a_ghost_member() {
        let law = ("crates/a/specs/A.antt", "pub f-is : A\nf-is = f-is\n");
        let text = "impl T for S {\n    ghost use Rattle.a.specs.A.{f-is};\n\n    ghost m = { f-is };\n}\n";
        assert!(whats(&[law, ("crates/b/src/lib.rt", text)]).is_empty());
        let path = "impl T for S {\n    ghost use Rattle.a.specs.A as a;\n\n    ghost m = { a.f-is };\n}\n";
        assert!(whats(&[law, ("crates/b/src/lib.rt", path)]).is_empty());
    }

    #[test]
    fn a_struct_is_used_by_its_module() {
        let structure = ("crates/a/src/lib.rt", "pub struct S {\n    pub a: u8,\n}\n");
        assert_eq!(whats(&[structure]).len(), 1);
        assert!(whats(&[
            structure,
            ("crates/b/specs/B.antt", "use Rattle.a.specs.declared.S.{S}\n")
        ])
        .is_empty());
    }
}
