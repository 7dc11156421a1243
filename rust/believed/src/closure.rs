//! The definitions that the roots reach. Below a definition that a theorem ties, the theorem's statement counts and not what it is.

use crate::names::{Names, Sources, Target};
use crate::{Item, Key, Kind};
use std::collections::{BTreeMap, BTreeSet};

pub struct Closure {
    /// Each definition that is reached, and what cites it first.
    pub reached: BTreeMap<Key, String>,
    /// The toolchain's modules, and the names of each that are cited.
    pub outside: BTreeMap<String, BTreeSet<String>>,
}

/// Where a search starts: the promises of all public functions that ask nothing, of traits' blocks and of types, and these items; `*` is
/// every one of a file.
#[derive(Debug, Default, PartialEq)]
pub struct Roots {
    pub contracts: bool,
    pub items: Vec<Key>,
}

/// The definitions that theorems tie, with these.
pub type Tied = BTreeMap<Key, Vec<Key>>;

/// What an item cites, resolved: a word in a pattern is a constructor, or binds.
pub fn citations(names: &Names, file: &str, item: &Item) -> Vec<Target> {
    let mut found: Vec<Target> = item.statement.iter().filter_map(|word| names.resolve(file, word)).collect();
    for clause in &item.clauses {
        let mut bound = BTreeSet::new();
        for word in &clause.patterns {
            match names.resolve(file, word) {
                Some(target @ (Target::Maker(_) | Target::Outside(..))) => found.push(target),
                _ => {
                    bound.insert(word);
                }
            }
        }
        let cited = clause.words.iter().filter(|word| !bound.contains(word));
        found.extend(cited.filter_map(|word| names.resolve(file, word)));
    }
    found
}

/// What the statement of an item cites.
pub fn stated(names: &Names, file: &str, item: &Item) -> Vec<Target> {
    item.statement.iter().filter_map(|word| names.resolve(file, word)).collect()
}

pub fn closure(sources: &Sources, roots: &Roots, tied: &Tied) -> Closure {
    let names = Names::new(sources);
    let mut search = Search::new(sources);
    for (file, source) in sources {
        for item in source.items.iter().filter(|item| roots.contracts && item.kind == Kind::Call) {
            search.take(stated(&names, file, item), &format!("the contract of {}", item.name));
        }
    }
    for (root, item) in roots.items.iter().flat_map(|root| found(sources, root)) {
        match item.kind {
            Kind::Definition => search.take(vec![Target::Item(root)], "the roots"),
            _ => search.take(stated(&names, &root.file, item), &root.name),
        }
    }
    search.run(&names, tied)
}

/// What leads from the statements of the theorems that tie a definition back to that definition, if anything does: a definition that they
/// cite beside it. They then do not say what it is.
pub fn leads_back(sources: &Sources, tied: &Tied, key: &Key) -> Option<String> {
    let names = Names::new(sources);
    let mut search = Search::new(sources);
    for theorem in tied.get(key).into_iter().flatten() {
        let cited = find(sources, theorem).map_or(Vec::new(), |item| stated(&names, &theorem.file, item));
        search.take(cited.into_iter().filter(|target| *target != Target::Item(key.clone())).collect(), &theorem.name);
    }
    search.run(&names, tied).reached.remove(key)
}

/// The items that a root is.
pub fn found<'a>(sources: &'a Sources, root: &Key) -> Vec<(Key, &'a Item)> {
    let items = sources.get(&root.file).map_or(&[][..], |source| &source.items);
    let is_root = |item: &&Item| root.name == "*" || item.name == root.name;
    items.iter().filter(is_root).map(|item| (Key::new(&root.file, &item.name), item)).collect()
}

pub fn find<'a>(sources: &'a Sources, key: &Key) -> Option<&'a Item> {
    sources.get(&key.file)?.item(&key.name)
}

struct Search<'a> {
    sources: &'a Sources,
    reached: BTreeMap<Key, String>,
    outside: BTreeMap<String, BTreeSet<String>>,
    /// What is reached and has yet to be read.
    open: Vec<Key>,
}

impl<'a> Search<'a> {
    fn new(sources: &'a Sources) -> Search<'a> {
        Search { sources, reached: BTreeMap::new(), outside: BTreeMap::new(), open: Vec::new() }
    }

    fn run(mut self, names: &Names, tied: &Tied) -> Closure {
        while let Some(key) = self.open.pop() {
            for theorem in tied.get(&key).into_iter().flatten() {
                if let Some(item) = find(self.sources, theorem) {
                    self.take(stated(names, &theorem.file, item), &theorem.name);
                }
            }
            if let (false, Some(item)) = (tied.contains_key(&key), find(self.sources, &key)) {
                self.take(citations(names, &key.file, item), &key.name);
            }
        }
        Closure { reached: self.reached, outside: self.outside }
    }

    /// Takes what is cited `by` something; a proof that a statement cites is no definition.
    fn take(&mut self, targets: Vec<Target>, by: &str) {
        for target in targets {
            match target {
                Target::Item(key) | Target::Maker(key) => {
                    let is_definition = find(self.sources, &key).is_some_and(|item| item.kind == Kind::Definition);
                    if is_definition && !self.reached.contains_key(&key) {
                        self.reached.insert(key.clone(), by.to_string());
                        self.open.push(key);
                    }
                }
                Target::Outside(module, name) => {
                    self.outside.entry(module).or_default().insert(name);
                }
            }
        }
    }
}

#[cfg(test)]
mod tests {
    use super::*;
    use crate::source;

    fn sources() -> Sources {
        let specs = "use Rattle.std.specs.Prelude.{length}
pub data Act : Type 0 where
  other : Act
abbrev pub low : Act → ℕ
low other = 0
abbrev pub shadow : ℕ → ℕ
shadow n = n
abbrev pub middle : ℕ → ℕ
middle shadow = length (deep shadow)
abbrev pub deep : ℕ → ℕ
deep n = low n
abbrev pub unused : ℕ → ℕ
unused n = n
";
        let proofs = "use Rattle.one.specs.Defs.{deep, shadow}
pub deep_is : (n : ℕ) → deep n ≡ shadow n
deep_is n = refl
";
        let code = "ghost use Rattle.one.specs.Defs.{middle, unused};
pub fn call(x: u8) -> u8
    ensures { result ≡ middle x }
{ x }
pub fn step(x: u8)
    requires { unused x }
{ }
";
        let files = [("one/specs/Defs.antt", specs), ("one/proofs/Laws.antt", proofs), ("one/src/lib.rt", code)];
        files.into_iter().map(|(file, text)| (file.to_string(), source(file, text))).collect()
    }

    fn reached(tied: &Tied) -> String {
        let found = closure(&sources(), &Roots { contracts: true, items: Vec::new() }, tied);
        found.reached.keys().map(|key| key.name.as_str()).collect::<Vec<_>>().join(" ")
    }

    #[test]
    fn definitions_lead_to_definitions() {
        assert_eq!(reached(&BTreeMap::new()), "Act deep low middle");
    }

    #[test]
    fn a_theorem_stands_for_what_it_ties() {
        let deep = Key::new("one/specs/Defs.antt", "deep");
        let law = Key::new("one/proofs/Laws.antt", "deep_is");
        assert_eq!(reached(&BTreeMap::from([(deep, vec![law])])), "deep middle shadow");
    }

    #[test]
    fn a_root_is_a_definition_a_statement_or_a_file() {
        let of = |file: &str, name: &str| {
            let roots = Roots { contracts: false, items: vec![Key::new(file, name)] };
            let found = closure(&sources(), &roots, &BTreeMap::new());
            found.reached.keys().map(|key| key.name.clone()).collect::<Vec<_>>().join(" ")
        };
        assert_eq!(of("one/specs/Defs.antt", "low"), "Act low");
        assert_eq!(of("one/proofs/Laws.antt", "deep_is"), "Act deep low shadow");
        assert_eq!(of("one/specs/Defs.antt", "*"), "Act deep low middle shadow unused");
    }

    #[test]
    fn the_toolchain_is_outside() {
        let found = closure(&sources(), &Roots { contracts: true, items: Vec::new() }, &BTreeMap::new());
        assert_eq!(found.outside["Rattle.std.specs.Prelude"], BTreeSet::from(["length".to_string()]));
    }
}
