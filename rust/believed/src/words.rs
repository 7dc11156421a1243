//! The words of a piece of antt, and which of them it binds itself.

use std::collections::BTreeSet;

const MARKS: &str = "(){}[],;⌜⌝⟦⟧";

/// Words and marks one by one; comments and quoted texts are left out.
pub fn words(text: &str) -> Vec<String> {
    text.lines().flat_map(|line| line_words(without_comment(line))).collect()
}

pub fn without_comment(line: &str) -> &str {
    if line.trim_start().starts_with("--") {
        return "";
    }
    line.split(" -- ").next().unwrap_or("")
}

fn line_words(line: &str) -> Vec<String> {
    let mut found = Vec::new();
    let mut word = String::new();
    let mut quoted = false;
    for c in line.chars() {
        let ends = quoted || c == '"' || c.is_whitespace() || MARKS.contains(c);
        if !ends {
            word.push(c);
            continue;
        }
        if !word.is_empty() {
            found.push(std::mem::take(&mut word));
        }
        if c == '"' {
            quoted = !quoted;
        } else if !quoted && MARKS.contains(c) {
            found.push(c.to_string());
        }
    }
    if !word.is_empty() {
        found.push(word);
    }
    found
}

fn is_name(word: &str) -> bool {
    ![":", "=", "λ"].contains(&word) && !MARKS.contains(word)
}

/// The names bound in `(a b : ..)`, `{a : ..}`, `λ a b. ..` and `let a ..`.
pub fn bound(words: &[String]) -> BTreeSet<String> {
    let mut names = BTreeSet::new();
    for (i, word) in words.iter().enumerate() {
        if word == "(" || word == "{" {
            let group: Vec<&String> = words[i + 1..].iter().take_while(|w| is_name(w)).collect();
            if words.get(i + 1 + group.len()).is_some_and(|w| w == ":") {
                names.extend(group.into_iter().cloned());
            }
        } else if word == "λ" {
            let group = words[i + 1..].iter().take_while(|w| is_name(w));
            let last = group.clone().position(|w| w.ends_with('.')).map_or(0, |at| at + 1);
            names.extend(group.take(last).map(|w| w.trim_end_matches('.').to_string()));
        } else if word == "let" {
            names.extend(words.get(i + 1).cloned());
        }
    }
    names
}

/// The words that a piece of antt cites: no mark, no projection `.field`, no field of a record that it makes, and nothing that it binds,
/// nor a projection `x.field` of that.
pub fn cited(words: &[String], bound: &BTreeSet<String>) -> Vec<String> {
    let mut found = Vec::new();
    for (i, word) in words.iter().enumerate() {
        let follows_mark = i > 0 && (words[i - 1] == "{" || words[i - 1] == ";");
        let is_field = follows_mark && words.get(i + 1).is_some_and(|w| w == "=");
        let is_binder = word.ends_with('.') && word.len() > 1;
        let head = word.split('.').next().unwrap_or(word);
        if is_name(word) && !head.is_empty() && !is_field && !is_binder && !bound.contains(head) {
            found.push(word.clone());
        }
    }
    found
}

#[cfg(test)]
mod tests {
    use super::*;

    fn cites(text: &str) -> String {
        let all = words(text);
        cited(&all, &bound(&all)).join(" ")
    }

    #[test]
    fn marks_comments_and_quotes() {
        assert_eq!(words("f (a∷b) \"take drop\" -- take\n-- drop\n⌜ x ⌝").join(" "), "f ( a∷b ) ⌜ x ⌝");
        assert_eq!(words("reports_first a--b").join(" "), "reports_first a--b");
    }

    #[test]
    fn what_is_bound_is_not_cited() {
        assert_eq!(cites("(first n : ℕ) → below first n"), "ℕ → below");
        assert_eq!(cites("Pairs (λ a b. label_in L a < label_in L b) ord"), "Pairs label_in L < label_in L ord");
        assert_eq!(cites("let x = f y in g x"), "let f y in g");
    }

    #[test]
    fn fields_are_not_cited() {
        assert_eq!(cites("length (labels_of B).entries"), "length labels_of B");
        assert_eq!(cites("(B : Buffers) → length B.labels"), "Buffers → length");
        assert_eq!(cites("length long.labels"), "length long.labels");
        assert_eq!(cites("record { spot = λ r c. r; gap = 4096; classes = two }"), "record 4096 two");
    }
}
