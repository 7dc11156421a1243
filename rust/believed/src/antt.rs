//! Reads a file of antt: its `use` lines, its definitions with their clauses, and the statements of its theorems.

use crate::words::{bound, cited, without_comment, words};
use crate::{Clause, Item, Kind, Source, Use};
use std::collections::BTreeSet;

/// A section, `module _ (..) where`: how far it is indented, and the words of its parameters.
struct Section {
    depth: usize,
    words: Vec<String>,
}

pub fn read(text: &str) -> Source {
    let lines: Vec<&str> = text.lines().collect();
    let mut source = Source::default();
    let mut sections: Vec<Section> = Vec::new();
    let mut said: Vec<&str> = Vec::new();
    let mut at = 0;
    while at < lines.len() {
        let line = lines[at].trim();
        if line.is_empty() {
            said.clear();
        } else if let Some(comment) = line.strip_prefix("--") {
            said.push(comment.trim());
        } else {
            let depth = depth(lines[at]);
            sections.retain(|section| section.depth < depth);
            let end = block_end(&lines, at);
            let block = lines[at..end].join("\n");
            if line.starts_with("module ") {
                sections.push(Section { depth, words: words(&block) });
            } else {
                read_block(&block, &sections, &said.join(" "), &mut source);
            }
            said.clear();
            at = end;
            continue;
        }
        at += 1;
    }
    source
}

fn depth(line: &str) -> usize {
    line.len() - line.trim_start().len()
}

/// Where the lines end that belong to the one at `at`: those of a section's head end with `where`, all others are indented further.
fn block_end(lines: &[&str], at: usize) -> usize {
    if lines[at].trim_start().starts_with("module ") {
        let head = lines[at..].iter().position(|line| without_comment(line).trim_end().ends_with("where"));
        return at + head.unwrap_or(0) + 1;
    }
    let mut end = at + 1;
    for (i, line) in lines.iter().enumerate().skip(at + 1) {
        if line.trim().is_empty() {
            continue;
        }
        if depth(line) <= depth(lines[at]) {
            break;
        }
        end = i + 1;
    }
    end
}

fn read_block(block: &str, sections: &[Section], said: &str, source: &mut Source) {
    let all = words(block);
    let head = all.iter().take_while(|w| ["abbrev", "unfoldable", "pub"].contains(&w.as_str())).count();
    let is_definition = head > 0 && all[0] != "pub";
    let rest = &all[head..];
    let Some(first) = rest.first() else { return };
    match first.as_str() {
        "use" => source.uses.extend(read_use(block)),
        "mod" | "ruleset" | "unfolding" => {}
        "record" | "data" => source.items.push(typed(block, &rest[1..], first == "data", sections, said)),
        _ if rest.get(1).is_some_and(|w| w == ":") => {
            let kind = if is_definition { Kind::Definition } else { Kind::Theorem };
            source.items.push(stated(block, rest, kind, sections, said));
        }
        _ => {
            if let Some(item) = source.items.last_mut() {
                add_clause(item, rest, block, sections);
            }
        }
    }
}

/// What the sections around an item say, and what they bind.
fn around(sections: &[Section]) -> (Vec<String>, BTreeSet<String>) {
    let all: Vec<String> = sections.iter().flat_map(|section| section.words.iter().cloned()).collect();
    let names = bound(&all);
    (cited(&all, &names), names)
}

fn stated(block: &str, rest: &[String], kind: Kind, sections: &[Section], said: &str) -> Item {
    let (mut statement, mut names) = around(sections);
    names.extend(bound(rest));
    statement.extend(cited(&rest[2..], &names));
    let text = vec![one_line(block)];
    Item {
        name: rest[0].clone(),
        kind,
        said: said.to_string(),
        text,
        statement,
        clauses: Vec::new(),
        makes: Vec::new(),
    }
}

/// A record or a data type: all of it is its statement. A field's name may be cited by the fields below it.
fn typed(block: &str, rest: &[String], is_data: bool, sections: &[Section], said: &str) -> Item {
    let (mut statement, mut names) = around(sections);
    let members = members(block);
    names.extend(bound(rest));
    names.extend(members.iter().cloned());
    statement.extend(cited(&rest[1..], &names));
    let makes = if is_data { members } else { Vec::new() };
    let lines = block.lines().filter(|line| !without_comment(line).trim().is_empty());
    let text = lines.map(one_line).collect();
    let (name, said) = (rest[0].clone(), said.to_string());
    Item { name, kind: Kind::Definition, said, text, statement, clauses: Vec::new(), makes }
}

/// The fields of a record, or the constructors of a data type.
fn members(block: &str) -> Vec<String> {
    let mut found = Vec::new();
    for line in block.lines().skip(1) {
        let all = words(line);
        let start = usize::from(all.first().is_some_and(|w| w == "pub"));
        if let Some(end) = all.iter().position(|w| w == ":" || w == "(" || w == "→") {
            if all[end] == ":" && end > start {
                found.extend(all[start..end].iter().cloned());
            }
        }
    }
    found
}

fn add_clause(item: &mut Item, rest: &[String], block: &str, sections: &[Section]) {
    let Some(equals) = rest.iter().position(|w| w == "=") else { return };
    let (_, mut names) = around(sections);
    names.extend(bound(&rest[equals..]));
    let patterns = rest[..equals].iter().filter(|w| **w != item.name).cloned().collect();
    item.text.push(one_line(block));
    item.clauses.push(Clause { patterns, words: cited(&rest[equals + 1..], &names) });
}

/// A piece of antt in one line, without what says how it unfolds.
fn one_line(block: &str) -> String {
    let line = block.split_whitespace().collect::<Vec<_>>().join(" ");
    let line = line.trim_start_matches("abbrev ").trim_start_matches("unfoldable ").trim_start_matches("pub ");
    line.trim_end_matches(" where").to_string()
}

/// `use a.b.{c, d as e}` or `use a.b as c`, also after `ghost` and before `;`.
pub fn read_use(line: &str) -> Option<Use> {
    let line = line.trim().trim_end_matches(';').trim_start_matches("pub ").trim_start_matches("ghost ");
    let rest = line.strip_prefix("use ")?;
    let (path, names) = match rest.split_once(".{") {
        Some((path, names)) => (path, names.trim_end().trim_end_matches('}')),
        None => (rest, ""),
    };
    let (path, alias) = match path.split_once(" as ") {
        Some((path, alias)) => (path, Some(alias.trim().to_string())),
        None => (path, None),
    };
    let local = |name: &str| match name.split_once(" as ") {
        Some((name, local)) => (name.trim().to_string(), local.trim().to_string()),
        None => (name.trim().to_string(), name.trim().to_string()),
    };
    let names = names.split(',').filter(|name| !name.trim().is_empty()).map(local).collect();
    Some(Use { path: path.trim().split('.').map(str::to_string).collect(), names, alias })
}

#[cfg(test)]
mod tests {
    use super::*;

    const FILE: &str = "-- What it is for.
use Rattle.std.specs.Prelude.{length, take as front}
use Rattle.jobfile.specs.Events.{move_of}

-- the events
-- of a file
abbrev pub moves : (ℕ → Event) → ℕ → Move
moves ev n = move_of (ev n)

pub data Act : Type 0 where
  other : Act
  access : (r c : ℕ) → Act

module _ (mv : ℕ → Move)
    (R : Rules) where
  unfoldable pub begun : ℕ → ℕ
  begun zero = 1
  begun (suc n) =
      begun n + begins (mv n)

  -- a race
  pub record Race (m j : ℕ) : Type 0 where
    pub kind : Kind
    -- one before the other
    pub earlier : Before kind m j

pub law : (n : ℕ) → begun n ≤ bound n
law n = hidden n
";

    fn item<'a>(source: &'a Source, name: &str) -> &'a Item {
        source.item(name).unwrap()
    }

    #[test]
    fn use_lines() {
        let found = read_use("ghost use a.b.{c, d as e};").unwrap();
        assert_eq!(found.path, ["a", "b"]);
        assert_eq!(found.names, [("c".into(), "c".into()), ("d".into(), "e".into())]);
        assert_eq!(read_use("use a.b as c").unwrap().alias.as_deref(), Some("c"));
        assert_eq!(read_use("uses a.b"), None);
    }

    #[test]
    fn definitions_and_their_clauses() {
        let source = read(FILE);
        assert_eq!(source.uses.len(), 2);
        let moves = item(&source, "moves");
        assert_eq!(moves.kind, Kind::Definition);
        assert_eq!(moves.said, "the events of a file");
        assert_eq!(moves.statement, ["ℕ", "→", "Event", "→", "ℕ", "→", "Move"]);
        assert_eq!(moves.clauses[0].patterns, ["ev", "n"]);
        assert_eq!(moves.clauses[0].words, ["move_of", "ev", "n"]);
        assert_eq!(item(&source, "begun").clauses.len(), 2);
        assert_eq!(item(&source, "begun").text[2], "begun (suc n) = begun n + begins (mv n)");
        assert_eq!(item(&source, "begun").clauses[1].words, ["begun", "n", "+", "begins", "n"]);
    }

    #[test]
    fn sections_records_and_data() {
        let source = read(FILE);
        assert!(item(&source, "begun").statement.contains(&"Rules".to_string()));
        assert_eq!(item(&source, "Act").makes, ["other", "access"]);
        let race = item(&source, "Race");
        assert_eq!(race.said, "a race");
        assert_eq!(race.text, ["record Race (m j : ℕ) : Type 0", "kind : Kind", "earlier : Before kind m j"]);
        assert!(race.statement.contains(&"Before".to_string()) && race.statement.contains(&"Kind".to_string()));
        assert!(!race.statement.contains(&"kind".to_string()) && !race.statement.contains(&"earlier".to_string()));
    }

    #[test]
    fn a_theorem_is_its_statement() {
        let source = read(FILE);
        let law = item(&source, "law");
        assert_eq!(law.kind, Kind::Theorem);
        assert!(law.statement.contains(&"bound".to_string()) && !law.statement.contains(&"Rules".to_string()));
    }
}
