//! A definition rests on definitions: no file of specs/ brings in anything from proofs, but for the words of mathematics that the kit keeps there.

use crate::fault::Fault;
use crate::source::{module_of, Source};

/// Where the kit's library has such words, as `Option`.
const WORDS: &str = "std.proofs.Math.";

pub fn faults(sources: &[Source]) -> Vec<Fault> {
    sources.iter().filter(|source| source.folder() != "proofs").flat_map(of).collect()
}

/// What a file of specs/, or a contract, brings in from proofs.
fn of(source: &Source) -> Vec<Fault> {
    let from_proofs = |path: &str| {
        let is_proof = |module: &str| module.split('.').nth(1) == Some("proofs");
        module_of(path).is_some_and(|module| is_proof(module) && !module.starts_with(WORDS))
    };
    let mut found = Vec::new();
    for import in source.imports.iter().filter(|import| from_proofs(import.path)) {
        let names: Vec<&str> = import.items.iter().map(|item| item.name).collect();
        let what = format!("{} is brought in from proofs, {}", names.join(", "), import.path);
        found.push(Fault::new(source.path, source.line(import.range.start), what));
    }
    found
}

#[cfg(test)]
mod tests {
    use super::*;
    use crate::source::mask;
    use crate::tree::Tree;

    #[test]
    fn definitions_rest_on_definitions() {
        let text = "use Rattle.a.specs.B.{b}\nuse Rattle.a.proofs.B.{c}\nuse Rattle.x.proofs.D.{d}\nuse Rattle.std.proofs.Math.Option.{some}\nuse Rattle.std.proofs.Common.{ap}\n";
        let masked =
            mask(&Tree::of(&[("crates/x/specs/X.antt", text), ("crates/x/proofs/X.antt", text)]));
        let found: Vec<String> = faults(&masked.sources()).iter().map(Fault::to_string).collect();
        let expected = [
            "crates/x/specs/X.antt:2: c is brought in from proofs, Rattle.a.proofs.B",
            "crates/x/specs/X.antt:3: d is brought in from proofs, Rattle.x.proofs.D",
            "crates/x/specs/X.antt:5: ap is brought in from proofs, Rattle.std.proofs.Common",
        ];
        assert_eq!(found, expected);
    }
}
