//! What the sources name of other files.

use crate::imports::Import;
use crate::source::{module_of, Source};
use crate::words::{Joint, Language};
use std::collections::HashSet;

#[derive(Default)]
pub struct Uses {
    /// `CRATE.specs.MODULE.NAME`, and every path above it.
    antt: HashSet<String>,
    /// `CRATE::NAME`, whatever stands between.
    code: HashSet<String>,
}

impl Uses {
    pub fn of(sources: &[Source]) -> Uses {
        let mut uses = Uses::default();
        for source in sources {
            uses.add_imports(source);
            uses.add_paths(source);
        }
        uses
    }

    pub fn antt(&self, module: &str, name: &str) -> bool {
        self.antt.contains(&format!("{module}.{name}"))
    }

    pub fn code(&self, crate_name: &str, name: &str) -> bool {
        self.code.contains(&format!("{crate_name}::{name}"))
    }

    /// Whether a module is named that the kit makes of a struct or an enum.
    pub fn type_of(&self, crate_name: &str, name: &str) -> bool {
        let named = |made: &str| self.antt.contains(&format!("{crate_name}.{made}.{name}"));
        ["specs.declared", "specs.contracts", "proofs"].into_iter().any(named)
    }

    fn add_imports(&mut self, source: &Source) {
        for import in &source.imports {
            if import.module {
                self.add_antt(import.path);
            }
            for item in &import.items {
                self.add_antt(&format!("{}.{}", import.path, item.name));
                self.add_code(&format!("{}::{}", import.path, item.name));
            }
        }
    }

    /// The paths of two names or more outside the imports.
    fn add_paths(&mut self, source: &Source) {
        let mut path = String::new();
        for (place, word) in source.words.iter().enumerate() {
            let tight = place > 0 && source.words[place - 1].end() + 2 >= word.start;
            match word.joint {
                Joint::Dot if tight => path = format!("{path}.{}", word.text),
                Joint::Colons => path = format!("{path}::{}", word.text),
                _ => path = expanded(source, word.text),
            }
            self.add_antt(&path);
            if source.language == Language::Rattle {
                self.add_code(&path);
                self.add_attribute(source.crate_name, &path);
            }
        }
    }

    fn add_antt(&mut self, path: &str) {
        if let Some(module) = module_of(path) {
            self.add_module(module);
        }
    }

    fn add_module(&mut self, module: &str) {
        let above = module.match_indices('.').map(|(end, _)| module[..end].to_string());
        self.antt.extend(above);
        self.antt.insert(module.to_string());
    }

    /// What an attribute `#[tactic(auto, using(crate::proofs::MODULE::NAME))]` names.
    fn add_attribute(&mut self, crate_name: &str, path: &str) {
        let names: Vec<&str> = path.split("::").collect();
        if let [head, "specs" | "proofs", ..] = names[..] {
            let head = if head == "crate" { crate_name } else { head };
            self.add_module(&format!("{head}.{}", names[1..].join(".")));
        }
    }

    fn add_code(&mut self, path: &str) {
        let mut names = path.split("::");
        if let Some(crate_name) = names.next() {
            self.code.extend(names.map(|name| format!("{crate_name}::{name}")));
        }
    }
}

/// The module that a name stands for, or the name.
fn expanded(source: &Source, name: &str) -> String {
    let brings = |import: &&Import| import.items.iter().any(|item| item.local == name);
    let Some(import) = source.imports.iter().find(brings) else { return name.to_string() };
    match (import.module, import.ghost) {
        (true, _) => import.path.to_string(),
        // `use a::part;`, then `part::f`
        (false, false) if source.language == Language::Rattle => format!("{}::{name}", import.path),
        (false, _) => name.to_string(),
    }
}
