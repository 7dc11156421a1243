//! Reads a file of code: its `use` lines, the promises of its public functions, of its traits' `impl` blocks and of its types, and the types
//! that it declares.

use crate::antt::read_use;
use crate::words::{bound, cited, words};
use crate::{Item, Kind, Source, Use};
use std::collections::BTreeSet;

/// The first part of a path of the code, `jobfile::Job`, as `Use` and words hold it.
pub const CODE: &str = "::";

pub fn read(text: &str) -> Source {
    let mut source = Source::default();
    let lines: Vec<&str> = text.lines().collect();
    let hidden = hidden(&lines);
    // the line at which a trait's block ends
    let mut shared = 0;
    for (at, line) in lines.iter().enumerate() {
        let line = line.trim_start();
        let word = line.strip_prefix("pub ").unwrap_or(line);
        let code = || lines[at..].iter().map(|l| l.split("//").next().unwrap_or("")).collect::<Vec<_>>().join("\n");
        if line.starts_with("ghost use ") {
            source.uses.extend(read_use(line));
        } else if word.starts_with("use ") {
            source.uses.extend(code_use(word));
        } else if is_public(line, at < shared) {
            source.items.extend(call(&code(), said(&lines, at)));
        } else if line.starts_with("impl ") || line.starts_with("impl<") {
            if let Some((owner, body, length)) = implemented(&code(), &hidden) {
                source.items.extend(ghosts(body, &owner, &said(&lines, at)));
                shared = at + length;
            }
        } else if word.starts_with("enum ") || word.starts_with("struct ") {
            let code = code();
            source.items.extend(declared(&code, word.starts_with("enum "), said(&lines, at)));
            if let (true, Some((owner, body))) = (line.starts_with("pub "), brackets(&code)) {
                source.items.extend(ghosts(body, &owner, &said(&lines, at)));
            }
        }
    }
    source
}

/// Whether a line begins a public function; those of a trait's block are public without the word.
fn is_public(line: &str, is_shared: bool) -> bool {
    line.starts_with("pub fn ") || line.starts_with("pub extern ") || (is_shared && line.starts_with("fn "))
}

/// The types and traits that the file keeps to itself.
fn hidden(lines: &[&str]) -> BTreeSet<String> {
    let declared = |line: &&str| {
        let rest = ["struct ", "enum ", "trait "].iter().find_map(|word| line.trim_start().strip_prefix(word))?;
        identifiers(rest).next().map(str::to_string)
    };
    lines.iter().filter_map(declared).collect()
}

fn identifiers(text: &str) -> impl Iterator<Item = &str> {
    text.split(|c: char| !c.is_alphanumeric() && c != '_').filter(|word| !word.is_empty())
}

/// `impl Trait for Type { .. }`: the type, what stands in the brackets, and how many lines the block has. Nobody else can use one that
/// names what the file keeps to itself.
fn implemented<'a>(text: &'a str, hidden: &BTreeSet<String>) -> Option<(String, &'a str, usize)> {
    let open = text.find('{')?;
    let head = text[..open].split_whitespace().collect::<Vec<_>>().join(" ");
    let owner = head.split_once(" for ")?.1.split(['<', ' ']).next()?;
    if identifiers(&head).any(|word| hidden.contains(word)) {
        return None;
    }
    let (body, length) = within(&text[open..], '{', '}')?;
    Some((identifiers(owner).last()?.to_string(), body, text[..open + length].lines().count()))
}

/// What the brackets of an `impl` block or a type promise without a function: a law, `ghost name = { .. };`, or a ghost field,
/// `ghost name: { .. },`, which every value of the type meets.
fn ghosts(body: &str, owner: &str, said: &str) -> Vec<Item> {
    let lines: Vec<&str> = body.lines().collect();
    let (mut found, mut depth) = (Vec::new(), 0);
    for (at, line) in lines.iter().enumerate() {
        if let (0, Some((name, statement))) = (depth, ghost(&lines[at..].join("\n"))) {
            let (name, said) = (format!("{owner}::{name}"), said.to_string());
            let (text, clauses, makes) = (Vec::new(), Vec::new(), Vec::new());
            found.push(Item { name, kind: Kind::Call, said, text, statement, clauses, makes });
        }
        depth += line.matches('{').count();
        depth -= line.matches('}').count();
    }
    found
}

/// The name of the law or ghost field that a text begins with, and what it cites. A ghost clause of a function ends with neither mark.
fn ghost(text: &str) -> Option<(String, Vec<String>)> {
    let rest = text.trim_start_matches(' ').strip_prefix("ghost ")?;
    let open = rest.find('{')?;
    let name = rest[..open].trim_end().strip_suffix([':', '='])?.trim_end();
    let (member, length) = within(&rest[open..], '{', '}')?;
    if !rest[open + length..].starts_with([';', ',']) {
        return None;
    }
    let all = words(member);
    Some((name.to_string(), cited(&all, &bound(&all))))
}

/// The comment above a line; attributes may stand between.
fn said(lines: &[&str], at: usize) -> String {
    let above: Vec<&str> = lines[..at]
        .iter()
        .rev()
        .map(|line| line.trim())
        .skip_while(|line| line.starts_with("#["))
        .take_while(|line| line.starts_with("//"))
        .map(|line| line.trim_start_matches('/').trim())
        .collect();
    above.into_iter().rev().filter(|line| !line.starts_with("requires:")).collect::<Vec<_>>().join(" ")
}

/// `use a::b::C;`, or `use a::b::{C, d};`
fn code_use(line: &str) -> Option<Use> {
    let path = line.strip_prefix("use ")?.trim_end_matches(';');
    let (path, names) = path.split_once("::{").or_else(|| path.rsplit_once("::"))?;
    let parts = std::iter::once(CODE).chain(path.split("::")).map(str::to_string).collect();
    let names = names.trim_end_matches('}').split(',').map(|name| name.trim().to_string());
    Some(Use { path: parts, names: names.map(|name| (name.clone(), name)).collect(), alias: None })
}

/// What stands between the brackets that open at the start of `text`, and how long both are with it.
fn within(text: &str, open: char, close: char) -> Option<(&str, usize)> {
    let mut depth = 0;
    for (at, c) in text.char_indices() {
        if c == open {
            depth += 1;
        } else if c == close {
            depth -= 1;
            if depth == 0 {
                return Some((&text[open.len_utf8()..at], at + close.len_utf8()));
            }
        }
    }
    None
}

fn call(text: &str, said: String) -> Option<Item> {
    let start = text.find("fn ")? + 3;
    let name: String = text[start..].chars().take_while(|c| c.is_alphanumeric() || *c == '_').collect();
    let open = start + text[start..].find('(')?;
    let (parameters, length) = within(&text[open..], '(', ')')?;
    let parameters = parameter_names(parameters);
    let mut rest = &text[open + length..];
    let (mut kind, mut statement) = (Kind::Call, Vec::new());
    while let Some(brace) = rest.find('{') {
        match clause_word(&rest[..brace]) {
            Some("requires") => kind = Kind::Step,
            Some(_) => {}
            None => break,
        }
        let (clause, length) = within(&rest[brace..], '{', '}')?;
        let all = words(clause);
        let mut names = bound(&all);
        names.extend(parameters.iter().cloned());
        names.insert("result".to_string());
        statement.extend(cited(&all, &names));
        rest = &rest[brace + length..];
    }
    Some(Item { name, kind, said, text: Vec::new(), statement, clauses: Vec::new(), makes: Vec::new() })
}

/// The word that a clause begins with, from what stands before its bracket: `requires`, or `ensures name`.
fn clause_word(before: &str) -> Option<&str> {
    before.split_whitespace().rev().take(2).find(|word| ["requires", "ensures"].contains(word))
}

fn parameter_names(parameters: &str) -> BTreeSet<String> {
    let before_colon =
        |part: &str| part.split_once(':').map(|(name, _)| name.trim().trim_start_matches("mut ").to_string());
    parameters.split(',').filter_map(before_colon).collect()
}

/// A struct or an enum: the types that it is made of, and what its ghost fields cite.
fn declared(text: &str, is_enum: bool, said: String) -> Option<Item> {
    let (name, body) = brackets(text)?;
    let mut statement = type_names(body, usize::from(is_enum));
    statement.extend(ghosts(body, &name, "").into_iter().flat_map(|ghost| ghost.statement));
    let text = body.lines().map(|line| line.trim().trim_end_matches(',').trim_start_matches("pub ").to_string());
    let text = std::iter::once(name.clone()).chain(text.filter(|line| !line.is_empty())).collect();
    Some(Item { name, kind: Kind::Definition, said, text, statement, clauses: Vec::new(), makes: Vec::new() })
}

/// The name of the struct or enum that a text begins with, and what stands in its brackets.
fn brackets(text: &str) -> Option<(String, &str)> {
    let rest = text.trim_start().trim_start_matches("pub ");
    let rest = rest.strip_prefix("enum ").or_else(|| rest.strip_prefix("struct "))?;
    let open = rest.find(['{', '(', ';'])?;
    let body = match &rest[open..=open] {
        "{" => within(&rest[open..], '{', '}')?.0,
        "(" => within(&rest[open..], '(', ')')?.0,
        _ => "",
    };
    Some((identifiers(rest).next()?.to_string(), body))
}

/// The names of types in the body of one, at least so deep in brackets: the variants of an enum stand at depth 0 and are no types.
fn type_names(body: &str, least: usize) -> Vec<String> {
    let (mut found, mut depth, mut word) = (Vec::new(), 0, String::new());
    for c in body.chars().chain([' ']) {
        if c.is_alphanumeric() || c == '_' || c == ':' {
            word.push(c);
            continue;
        }
        let name = word.rsplit("::").next().unwrap_or("");
        if depth >= least && name.starts_with(|c: char| c.is_uppercase()) && !word.ends_with(':') {
            found.push(word.clone());
        }
        word.clear();
        match c {
            '(' | '{' => depth += 1,
            ')' | '}' => depth -= 1,
            _ => {}
        }
    }
    found
}

#[cfg(test)]
mod tests {
    use super::*;

    const FILE: &str = "// What it is for.
ghost use Rattle.jobfile.specs.File.{check_of};
pub use coding::{Decoded, decode};
use jobfile::Refusal;

// What comes back.
pub enum Answer {
    Clean { strands: usize },
    Held(Decoded, other::Kind),
    Refused(Refusal),
}

pub struct Job {
    pub start: usize, // Start
    pub first: Mark,
}

pub struct Tasks {
    pub depth: usize,
    ghost within: { (1 ≤ depth) × below depth },
}

struct Own {
    count: usize,
    ghost small: { Small count },
}

impl From<Job> for crate::Counts {
    ghost from_gives = { λ job counts.
        counts ≡ counts_in job };

    fn from(job: Job) -> Counts
        ensures { Counted result }
    {
        nothing(job)
    }
}

impl From<Own> for Counts {
    ghost from_gives = { λ own counts. Owned counts };
}

impl Job {
    pub fn size(&self) -> usize
        ensures { result ≡ size_of self }
    {
        self.inner()
    }

    fn inner(&self) -> usize
        ensures { Inner result }
    {
    }
}

// Judges a file.
#[unsafe(no_mangle)]
pub extern \"C\" fn judge(file: &[u8], first: u64) -> Answer
    ensures value { result ≡ judge_of (was file) first }
    ensures fits { Fits result.0 file.now { x } }
{
    nothing(file)
}

// The same.
// requires: a reason.
pub fn step(file: &[u8])
    requires { Known file.now }
{
}

fn hidden() ensures { Hidden } {}
";

    #[test]
    fn promises_of_public_functions() {
        let source = read(FILE);
        let judge = source.item("judge").unwrap();
        assert_eq!((judge.kind, judge.said.as_str()), (Kind::Call, "Judges a file."));
        assert_eq!(judge.statement, ["≡", "judge_of", "was", "Fits", "x"]);
        let step = source.item("step").unwrap();
        assert_eq!((step.kind, step.said.as_str()), (Kind::Step, "The same."));
        assert!(source.item("hidden").is_none());
    }

    #[test]
    fn promises_of_impl_blocks() {
        let source = read(FILE);
        let law = source.item("Counts::from_gives").unwrap();
        assert_eq!((law.kind, law.statement.join(" ").as_str()), (Kind::Call, "≡ counts_in"));
        let laws = source.items.iter().filter(|item| item.name.ends_with("from_gives"));
        assert_eq!(laws.count(), 1, "nobody else can convert from `Own`");
        assert_eq!(source.item("from").unwrap().statement, ["Counted"]);
        assert_eq!(source.item("size").unwrap().statement, ["≡", "size_of", "self"]);
        assert!(source.item("inner").is_none());
    }

    #[test]
    fn promises_of_types() {
        let source = read(FILE);
        let within = source.item("Tasks::within").unwrap();
        assert_eq!((within.kind, within.statement.join(" ").as_str()), (Kind::Call, "1 ≤ depth × below depth"));
        assert_eq!(source.item("Tasks").unwrap().statement, within.statement);
        assert!(source.item("Own::small").is_none());
        assert!(source.item("Own").unwrap().statement.contains(&"Small".to_string()));
    }

    #[test]
    fn types_of_the_code() {
        let source = read(FILE);
        assert_eq!(source.item("Answer").unwrap().statement, ["Decoded", "other::Kind", "Refusal"]);
        assert_eq!(source.item("Job").unwrap().statement, ["Mark"]);
        assert_eq!(source.item("Job").unwrap().text, ["Job", "start: usize", "first: Mark"]);
        assert_eq!(source.uses[1].path, [CODE, "coding"]);
        assert_eq!(source.uses[1].names[1], ("decode".to_string(), "decode".to_string()));
        assert_eq!(source.uses[2].names, [("Refusal".to_string(), "Refusal".to_string())]);
    }
}
