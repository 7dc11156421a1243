//! docs/BELIEVED.md: its roots, its two lists and its vocabulary, read and filled.
//!
//! A definition is a line `` - `name`: what it says `` below the headings of its crate (`###`) and its file (`####`). One that is tied has
//! `` - `name` by `theorem` (crate/proofs/File.antt): what that says ``, with as many theorems as it takes.

use crate::closure::{Closure, Roots, Tied};
use crate::names::Sources;
use crate::{Item, Key};
use std::collections::BTreeSet;

const ROOTS: &str = "Roots";
const BELIEVED: &str = "To be believed";
const TIED: &str = "Tied by a theorem";
const VOCABULARY: &str = "Vocabulary";

/// As much of a comment as stands in the list, in bytes; it is cut where a sentence ends.
const LONGEST: usize = 220;

#[derive(Debug, Default)]
pub struct Document {
    pub roots: Roots,
    pub believed: Vec<Key>,
    pub tied: Vec<(Key, Vec<Key>)>,
    pub vocabulary: Vec<String>,
}

pub fn read(text: &str) -> Document {
    let mut document = Document::default();
    let (mut section, mut in_crate, mut file) = ("", "", String::new());
    for line in text.lines() {
        if let Some(title) = line.strip_prefix("## ") {
            section = title.trim();
        } else if let Some(title) = line.strip_prefix("### ") {
            in_crate = title.trim();
        } else if let Some(title) = line.strip_prefix("#### ") {
            file = format!("{in_crate}/{}", title.trim());
        } else if let Some(entry) = line.strip_prefix("- ") {
            document.take(section, &file, entry);
        }
    }
    document
}

impl Document {
    fn take(&mut self, section: &str, file: &str, entry: &str) {
        if section == ROOTS {
            self.roots.contracts |= entry.starts_with("public contracts");
            self.roots.items.extend(cited(entry));
            return;
        }
        let Some((name, rest)) = entry.strip_prefix('`').and_then(|rest| rest.split_once('`')) else { return };
        match section {
            BELIEVED => self.believed.push(Key::new(file, name)),
            TIED => self.tied.push((Key::new(file, name), cited(rest))),
            VOCABULARY => self.vocabulary.push(name.to_string()),
            _ => {}
        }
    }

    pub fn tied_by(&self) -> Tied {
        self.tied.iter().cloned().collect()
    }
}

/// The names of `` `a`, `b` (file), `c` (file): .. ``, up to the colon behind a file.
fn cited(text: &str) -> Vec<Key> {
    let (mut found, mut names, mut rest) = (Vec::new(), Vec::new(), text);
    while let Some(at) = rest.find(['`', '(']) {
        let close = if rest[at..].starts_with('`') { '`' } else { ')' };
        let Some(length) = rest[at + 1..].find(close) else { break };
        let inside = &rest[at + 1..at + 1 + length];
        rest = &rest[at + length + 2..];
        if close == '`' {
            names.push(inside);
            continue;
        }
        found.extend(names.drain(..).map(|name| Key::new(inside, name)));
        if rest.starts_with(':') {
            break;
        }
    }
    found
}

/// One line for a definition: what the comment above it says, or its own text.
fn entry(item: &Item) -> String {
    let said = if item.said.is_empty() { itself(item) } else { shortened(&item.said) };
    format!("- `{}`: {said}", item.name)
}

/// A definition's clauses or fields if they are short, or its first line.
fn itself(item: &Item) -> String {
    let Some((first, rest)) = item.text.split_first() else { return String::new() };
    let rest = rest.join("; ");
    format!("`{}`", if rest.is_empty() || rest.len() > LONGEST { first } else { &rest })
}

fn shortened(said: &str) -> String {
    if said.len() <= LONGEST {
        return said.to_string();
    }
    let ends = said.match_indices(". ").map(|(at, _)| at + 1);
    let end = ends.take_while(|at| *at <= LONGEST).last().or_else(|| said.find(". ").map(|at| at + 1));
    let short = &said[..end.unwrap_or(said.len())];
    let is_cut = short.matches('"').count() % 2 == 1;
    if is_cut {
        format!("{short} [..]\"")
    } else {
        short.to_string()
    }
}

/// Definitions in lines, below the headings of their crates in the order given, and of their files.
pub fn listed(sources: &Sources, keys: &[Key], crates: &[String]) -> String {
    let mut text = String::new();
    for in_crate in crates {
        let mut files = String::new();
        for (file, source) in sources.iter().filter(|(file, _)| file.split('/').next() == Some(in_crate)) {
            let is_listed = |item: &&Item| keys.contains(&Key::new(file, &item.name));
            let lines: Vec<String> = source.items.iter().filter(is_listed).map(entry).collect();
            if !lines.is_empty() {
                files += &format!("#### {}\n\n{}\n\n", &file[in_crate.len() + 1..], lines.join("\n"));
            }
        }
        if !files.is_empty() {
            text += &format!("### {in_crate}\n\n{files}");
        }
    }
    text
}

/// The document with the first list and the vocabulary made anew; what stands above them in their sections stays.
pub fn filled(text: &str, sources: &Sources, closure: &Closure, crates: &[String]) -> String {
    let document = read(text);
    let tied = document.tied_by();
    let keys: Vec<Key> = closure.reached.keys().filter(|key| !tied.contains_key(key)).cloned().collect();
    let believed = listed(sources, &keys, crates);
    let words = |(module, names): (&String, &BTreeSet<String>)| {
        let names: Vec<String> = names.iter().map(|name| format!("`{name}`")).collect();
        format!("- `{module}`: {}\n", names.join(", "))
    };
    let vocabulary: String = closure.outside.iter().map(words).collect();
    let (mut made, mut section, mut is_old) = (String::new(), "", false);
    for line in text.lines() {
        if let Some(title) = line.strip_prefix("## ") {
            if is_old && section == VOCABULARY {
                made += "\n";
            }
            (section, is_old) = (title.trim(), false);
        }
        let starts =
            (section == BELIEVED && line.starts_with("### ")) || (section == VOCABULARY && line.starts_with("- "));
        if starts && !is_old {
            made += if section == BELIEVED { &believed } else { &vocabulary };
            is_old = true;
        }
        if !is_old {
            made += line;
            made += "\n";
        }
    }
    made
}

#[cfg(test)]
mod tests {
    use super::*;
    use crate::source;

    const TEXT: &str = "# Title

## Roots

- public contracts: every one
- `Demand2`, `Demand3` (judging/specs/Demands.antt): the (two) demands `x` (y)

## To be believed

Words.

### one

#### specs/Defs.antt

- `kept`: words of old
- `gone`: nothing

## Tied by a theorem

### one

#### specs/Defs.antt

- `par` by `walk_is`, `walk_on` (one/proofs/A.antt), `b` (one/proofs/B.antt): what `it` says (not)

## Vocabulary

- `Rattle.std.specs.Gone`: `x`

The end.
";

    #[test]
    fn the_lists_are_read() {
        let document = read(TEXT);
        assert!(document.roots.contracts);
        let demands = |name| Key::new("judging/specs/Demands.antt", name);
        assert_eq!(document.roots.items, [demands("Demand2"), demands("Demand3")]);
        assert_eq!(
            document.believed,
            [Key::new("one/specs/Defs.antt", "kept"), Key::new("one/specs/Defs.antt", "gone")]
        );
        let a = |name| Key::new("one/proofs/A.antt", name);
        let theorems = vec![a("walk_is"), a("walk_on"), Key::new("one/proofs/B.antt", "b")];
        assert_eq!(document.tied, [(Key::new("one/specs/Defs.antt", "par"), theorems)]);
        assert_eq!(document.vocabulary, ["Rattle.std.specs.Gone"]);
    }

    #[test]
    fn filling_takes_the_comments_and_drops_what_is_gone() {
        let specs = "-- comment\nabbrev pub kept : ℕ\n\n-- the added one\nabbrev pub added : ℕ\n";
        let sources = Sources::from([("one/specs/Defs.antt".to_string(), source("one/specs/Defs.antt", specs))]);
        let key = |name| (Key::new("one/specs/Defs.antt", name), String::new());
        let closure = Closure {
            reached: [key("kept"), key("added"), key("par")].into(),
            outside: [("Rattle.std.specs.Prelude".to_string(), BTreeSet::from(["length".to_string()]))].into(),
        };
        let made = filled(TEXT, &sources, &closure, &["one".to_string()]);
        assert!(made.contains(
            "Words.\n\n### one\n\n#### specs/Defs.antt\n\n- `kept`: comment\n- `added`: the added one\n\n## Tied"
        ));
        assert!(!made.contains("`gone`"));
        assert!(made.contains("- `par` by `walk_is`"));
        assert!(made.contains("- `Rattle.std.specs.Prelude`: `length`\n") && !made.contains("Rattle.std.specs.Gone"));
        assert_eq!(filled(&made, &sources, &closure, &["one".to_string()]), made);
    }

    #[test]
    fn long_comments_end_with_a_sentence() {
        let long = format!("First. {}. Last.", "x".repeat(LONGEST));
        assert_eq!(shortened(&long), "First.");
        assert_eq!(shortened(&format!("\"{long}\"")), "\"First. [..]\"");
    }
}
