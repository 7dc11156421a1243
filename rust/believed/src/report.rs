//! The document held against the definitions: what is missing, what is too much, and what a theorem does not tie.

use crate::closure::{find, found, leads_back, stated, Closure};
use crate::document::{listed, Document};
use crate::names::{Names, Sources, Target};
use crate::{Key, Kind};
use std::collections::BTreeSet;

/// What is wrong, a paragraph each; nothing if the document is right.
pub fn faults(sources: &Sources, document: &Document, closure: &Closure, crates: &[String]) -> Vec<String> {
    let mut faults = Vec::new();
    if !document.roots.contracts && document.roots.items.is_empty() {
        faults.push("there are no roots".to_string());
    }
    for root in document.roots.items.iter().filter(|root| found(sources, root).is_empty()) {
        faults.push(format!("the root `{}` is not in {}", root.name, root.file));
    }
    faults.extend(missing(sources, document, closure, crates));
    faults.extend(too_much(sources, document, closure));
    let names = Names::new(sources);
    for (key, theorems) in &document.tied {
        if theorems.is_empty() {
            faults.push(format!("`{}` ({}) is tied by no theorem", key.name, key.file));
        }
        faults.extend(theorems.iter().filter_map(|theorem| untied(sources, &names, key, theorem)));
        if let Some(by) = leads_back(sources, &document.tied_by(), key) {
            faults.push(format!("`{}` ({}) is tied in a circle: `{by}` leads back to it", key.name, key.file));
        }
    }
    faults.extend(vocabulary(document, closure));
    faults
}

fn missing(sources: &Sources, document: &Document, closure: &Closure, crates: &[String]) -> Option<String> {
    let tied = document.tied_by();
    let is_missing = |key: &&Key| !document.believed.contains(key) && !tied.contains_key(key);
    let keys: Vec<Key> = closure.reached.keys().filter(is_missing).cloned().collect();
    if keys.is_empty() {
        return None;
    }
    let by = |key: &Key| format!("    {} ({}) by {}", key.name, key.file, closure.reached[key]);
    let reached: Vec<String> = keys.iter().map(by).collect();
    let lines = listed(sources, &keys, crates);
    Some(format!(
        "{} definitions are in neither list, reached\n{}\nto be pasted:\n\n{lines}",
        keys.len(),
        reached.join("\n")
    ))
}

fn too_much(sources: &Sources, document: &Document, closure: &Closure) -> Vec<String> {
    let mut seen = BTreeSet::new();
    let mut faults = Vec::new();
    for key in document.believed.iter().chain(document.tied.iter().map(|(key, _)| key)) {
        let place = format!("- `{}` ({})", key.name, key.file);
        if !seen.insert(key) {
            faults.push(format!("{place} is listed twice"));
        }
        if !find(sources, key).is_some_and(|item| item.kind == Kind::Definition) {
            faults.push(format!("{place} is listed, and there is no such definition"));
        } else if !closure.reached.contains_key(key) {
            faults.push(format!("{place} is listed, and nothing leads to it"));
        }
    }
    faults
}

/// Why a theorem does not tie a definition: it is not there, or its statement does not name it.
fn untied(sources: &Sources, names: &Names, key: &Key, theorem: &Key) -> Option<String> {
    let place = format!("`{}` ({}) is to be tied by `{}`", key.name, key.file, theorem.name);
    let Some(item) = find(sources, theorem) else {
        return Some(format!("{place}, which is not in {}", theorem.file));
    };
    if item.kind != Kind::Theorem {
        return Some(format!("{place}, which is no theorem of {}", theorem.file));
    }
    let named = stated(names, &theorem.file, item).contains(&Target::Item(key.clone()));
    (!named).then(|| format!("{place}, whose statement in {} does not name it", theorem.file))
}

fn vocabulary(document: &Document, closure: &Closure) -> Vec<String> {
    let listed: BTreeSet<&String> = document.vocabulary.iter().collect();
    let used: BTreeSet<&String> = closure.outside.keys().collect();
    let missing =
        used.difference(&listed).map(|module| format!("the module `{module}` is used, and not in the vocabulary"));
    let idle =
        listed.difference(&used).map(|module| format!("the module `{module}` is in the vocabulary, and not used"));
    missing.chain(idle).collect()
}

#[cfg(test)]
mod tests {
    use super::*;
    use crate::closure::closure;
    use crate::{document, source};

    const SPECS: &str = "-- one
abbrev pub one : ℕ
one = two
-- two
abbrev pub two : ℕ
two = three
-- three
abbrev pub three : ℕ
three = 3
";
    const PROOFS: &str = "use Rattle.c.specs.D.{one, two, three}
pub two_is : two ≡ 3
two_is = refl
pub three_is : three ≡ 3
three_is = refl
pub two_as_one : two ≡ one
two_as_one = refl
";
    const CODE: &str = "ghost use Rattle.c.specs.D.{one};\npub fn f() -> u8\n    ensures { result ≡ one }\n{ 3 }\n";

    fn told(believed: &str, tied: &str) -> String {
        let sources = Sources::from([
            ("c/specs/D.antt".to_string(), source("c/specs/D.antt", SPECS)),
            ("c/proofs/P.antt".to_string(), source("c/proofs/P.antt", PROOFS)),
            ("c/src/lib.rt".to_string(), source("c/src/lib.rt", CODE)),
        ]);
        let head = "### c\n\n#### specs/D.antt\n\n";
        let text = format!(
            "## Roots\n\n- public contracts\n\n## To be believed\n\n{head}{believed}\n\n## Tied by a theorem\n\n{head}{tied}\n"
        );
        let document = document::read(&text);
        let closure = closure(&sources, &document.roots, &document.tied_by());
        faults(&sources, &document, &closure, &["c".to_string()]).join("\n")
    }

    #[test]
    fn a_whole_document_has_no_fault() {
        assert_eq!(told("- `one`: 1\n- `two`: 2\n- `three`: 3", ""), "");
        assert_eq!(told("- `one`: 1", "- `two` by `two_is` (c/proofs/P.antt): 3"), "");
    }

    #[test]
    fn what_is_missing_can_be_pasted() {
        let told = told("- `one`: 1", "");
        assert!(told.contains("2 definitions") && told.contains("two (c/specs/D.antt) by one"));
        assert!(told.ends_with("### c\n\n#### specs/D.antt\n\n- `two`: two\n- `three`: three\n\n"));
    }

    #[test]
    fn what_is_too_much_is_told() {
        assert!(told("- `one`: 1\n- `two`: 2\n- `three`: 3\n- `four`: 4", "").contains("no such definition"));
        assert!(told("- `one`: 1\n- `three`: 3", "- `two` by `two_is` (c/proofs/P.antt): 3")
            .contains("nothing leads to it"));
        assert!(told("- `one`: 1\n- `one`: 1\n- `two`: 2\n- `three`: 3", "").contains("listed twice"));
    }

    #[test]
    fn a_theorem_must_be_there_and_name_the_definition() {
        assert!(told("- `one`: 1", "- `two` by `two_was` (c/proofs/P.antt): 3").contains("is not in c/proofs/P.antt"));
        assert!(
            told("- `one`: 1\n- `three`: 3", "- `two` by `three_is` (c/proofs/P.antt): 3").contains("does not name it")
        );
        assert!(told("- `one`: 1", "- `two`: 3").contains("by no theorem"));
        assert!(told("- `one`: 1", "- `two` by `two_as_one` (c/proofs/P.antt): 3").contains("`one` leads back to it"));
    }
}
