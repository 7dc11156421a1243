//! What a word of a file names, by the file's own items and its `use` lines.

use crate::rattle::CODE;
use crate::{Item, Key, Kind, Source, Use};
use std::collections::BTreeMap;

pub type Sources = BTreeMap<String, Source>;

#[derive(Clone, Debug, PartialEq)]
pub enum Target {
    Item(Key),
    /// A constructor of this type.
    Maker(Key),
    /// A name of the toolchain, by its module.
    Outside(String, String),
}

pub struct Names<'a> {
    sources: &'a Sources,
    scopes: BTreeMap<&'a str, BTreeMap<String, Target>>,
}

impl<'a> Names<'a> {
    pub fn new(sources: &'a Sources) -> Names<'a> {
        let mut names = Names { sources, scopes: BTreeMap::new() };
        for (file, source) in sources {
            let mut scope = BTreeMap::new();
            for line in &source.uses {
                for (name, local) in &line.names {
                    names.target(file, &line.path, name).map(|target| scope.insert(local.clone(), target));
                }
            }
            // no clause names a function: a definition that is in scope may have its name
            let is_named = |item: &&Item| ![Kind::Call, Kind::Step].contains(&item.kind);
            for item in source.items.iter().filter(is_named) {
                let key = Key::new(file, &item.name);
                scope.extend(item.makes.iter().map(|made| (made.clone(), Target::Maker(key.clone()))));
                scope.insert(item.name.clone(), Target::Item(key));
            }
            names.scopes.insert(file, scope);
        }
        names
    }

    /// What a word names in a file; an operator is named with its places, and a projection `x.field` names what `x` does.
    pub fn resolve(&self, file: &str, word: &str) -> Option<Target> {
        let scope = self.scopes.get(file)?;
        if let Some(target) = scope.get(word).or_else(|| scope.get(&format!("◌{word}◌"))) {
            return Some(target.clone());
        }
        if let Some((path, name)) = word.rsplit_once("::") {
            let path: Vec<String> = std::iter::once(CODE).chain(path.split("::")).map(str::to_string).collect();
            return self.target(file, &path, name);
        }
        let (head, name) = word.split_once('.')?;
        let is_it = |line: &&Use| line.alias.as_deref() == Some(head);
        match self.sources.get(file)?.uses.iter().find(is_it) {
            Some(line) => self.target(file, &line.path, name),
            None => scope.get(head).cloned(),
        }
    }

    fn target(&self, file: &str, path: &[String], name: &str) -> Option<Target> {
        if path[0] == CODE {
            return self.type_of(file, &path[1..], name, 4).map(Target::Item);
        }
        let outside = || Some(Target::Outside(path.join("."), name.to_string()));
        let [first, in_crate, within @ ..] = path else { return outside() };
        if first != "Rattle" || !self.has_crate(in_crate) {
            return outside();
        }
        if within.get(1).is_some_and(|part| part == "declared") {
            return self.declared(in_crate, &within[2..], name);
        }
        let file = format!("{in_crate}/{}.antt", within.join("/"));
        let source = self.sources.get(&file)?;
        if source.item(name).is_some() {
            return Some(Target::Item(Key::new(&file, name)));
        }
        let owner = source.items.iter().find(|item| item.makes.iter().any(|made| made == name))?;
        Some(Target::Maker(Key::new(&file, &owner.name)))
    }

    /// `declared.event.Kind.{Kind}`, or `declared.event.Kind.TheVariants.{Read}`: a type of src/event.rt.
    fn declared(&self, in_crate: &str, path: &[String], name: &str) -> Option<Target> {
        let variants = path.last().is_some_and(|part| part == "TheVariants");
        let path = &path[..path.len() - usize::from(variants)];
        let (of, modules) = path.split_last()?;
        let key = Key::new(&self.code_file(in_crate, modules)?, of);
        Some(if variants || name != of { Target::Maker(key) } else { Target::Item(key) })
    }

    /// The type of that name at a path of the code, through as many `use` lines as `far` says.
    fn type_of(&self, file: &str, path: &[String], name: &str, far: usize) -> Option<Key> {
        let here = file.split('/').next()?;
        let (in_crate, modules) = match path.split_first() {
            Some((first, rest)) if first == "crate" => (here, rest),
            Some((first, rest)) if self.has_crate(first) => (first.as_str(), rest),
            _ => (here, path),
        };
        let file = self.code_file(in_crate, modules)?;
        let source = self.sources.get(&file)?;
        if source.item(name).is_some() {
            return Some(Key::new(&file, name));
        }
        let is_it = |line: &&Use| line.path[0] == CODE && line.names.iter().any(|(_, local)| local == name);
        let line = source.uses.iter().find(is_it)?;
        if far == 0 {
            return None;
        }
        self.type_of(&file, &line.path[1..], name, far - 1)
    }

    fn code_file(&self, in_crate: &str, modules: &[String]) -> Option<String> {
        let names =
            if modules.is_empty() { vec!["lib".to_string(), "main".to_string()] } else { vec![modules.join("/")] };
        names.into_iter().map(|name| format!("{in_crate}/src/{name}.rt")).find(|file| self.sources.contains_key(file))
    }

    fn has_crate(&self, name: &str) -> bool {
        let prefix = format!("{name}/");
        self.sources.range(prefix.clone()..).next().is_some_and(|(file, _)| file.starts_with(&prefix))
    }
}

#[cfg(test)]
mod tests {
    use super::*;
    use crate::source;

    fn sources() -> Sources {
        let files = [
            ("low/specs/Acts.antt", "pub data Act : Type 0 where\n  other : Act\nabbrev pub ◌∪◌ : ℕ → ℕ\n"),
            (
                "high/specs/Top.antt",
                "use Rattle.low.specs.Acts.{Act, other as none, ◌∪◌}\nuse Rattle.low.specs.declared.event.Kind.TheVariants.{Read}
use Rattle.low.specs.declared.Job.{Job}\nuse Rattle.std.specs.Prelude.{length}\nuse Rattle.low.specs.Acts as acts\n",
            ),
            ("low/src/lib.rt", "mod event;\npub use event::{Kind, made};\npub struct Job {\n    pub kind: Kind,\n}\n"),
            ("low/src/event.rt", "pub enum Kind {\n    Read,\n}\n"),
            (
                "high/src/lib.rt",
                "ghost use Rattle.low.specs.Acts.{other as kind};\nuse low::Kind;\npub enum Answer {\n    To(Kind),\n}
pub fn kind() -> u8\n    ensures { result ≡ kind }\n{\n}\n",
            ),
        ];
        files.into_iter().map(|(file, text)| (file.to_string(), source(file, text))).collect()
    }

    #[test]
    fn words_name_items_through_use_lines() {
        let sources = sources();
        let names = Names::new(&sources);
        let of = |word| names.resolve("high/specs/Top.antt", word);
        assert_eq!(of("Act"), Some(Target::Item(Key::new("low/specs/Acts.antt", "Act"))));
        assert_eq!(of("none"), Some(Target::Maker(Key::new("low/specs/Acts.antt", "Act"))));
        assert_eq!(of("∪"), Some(Target::Item(Key::new("low/specs/Acts.antt", "◌∪◌"))));
        assert_eq!(of("acts.Act"), of("Act"));
        assert_eq!(of("Act.field"), of("Act"));
        assert_eq!(of("other"), None);
        assert_eq!(of("length"), Some(Target::Outside("Rattle.std.specs.Prelude".into(), "length".into())));
    }

    #[test]
    fn types_of_the_code_are_named_through_modules() {
        let sources = sources();
        let names = Names::new(&sources);
        let kind = Key::new("low/src/event.rt", "Kind");
        assert_eq!(names.resolve("high/specs/Top.antt", "Read"), Some(Target::Maker(kind.clone())));
        assert_eq!(names.resolve("high/specs/Top.antt", "Job"), Some(Target::Item(Key::new("low/src/lib.rt", "Job"))));
        assert_eq!(names.resolve("low/src/lib.rt", "Kind"), Some(Target::Item(kind.clone())));
        assert_eq!(names.resolve("high/src/lib.rt", "Kind"), Some(Target::Item(kind.clone())));
        assert_eq!(names.resolve("high/src/lib.rt", "low::Kind"), Some(Target::Item(kind)));
    }

    #[test]
    fn a_clause_names_no_function() {
        let sources = sources();
        let names = Names::new(&sources);
        let act = Key::new("low/specs/Acts.antt", "Act");
        assert_eq!(names.resolve("high/src/lib.rt", "kind"), Some(Target::Maker(act)));
    }
}
