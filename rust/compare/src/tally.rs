//! What the files of a run were: so that a run shows what it tried.

use crate::blocks::Lists;
use std::fmt;

pub const KINDS: [&str; 3] = ["WW", "WR", "RW"];
const RELATIONS: [&str; 4] = ["same", "before", "after", "parallel"];
const RACED: [&str; 3] = ["none", "one", "more"];

#[derive(Clone, Debug, Default)]
pub struct Tally {
    pub files: u64,
    pub calls: u64,
    /// By number.
    pub refusals: [u64; 19],
    pub clean: u64,
    /// By the kinds of both accesses.
    pub races: [u64; 3],
    /// Calls for every record by how many of them raced: none, one, more.
    pub raced: [u64; 3],
    /// And those in which a record that did not race stands between two that did.
    pub clean_between: u64,
    pub most_raced: u64,
    /// Refusals 16 for a list; `refusals` has those of writing too.
    pub short_lists: u64,
    /// By the question's answer.
    pub relations: [u64; 4],
    pub written: u64,
    pub respaced: u64,
    pub most_strands: u64,
    /// Runs of `judge` and of `records`.
    pub programs: [u64; 2],
}

impl Tally {
    pub fn refusal(&mut self, number: u64) {
        if let Some(count) = self.refusals.get_mut(number as usize) {
            *count += 1;
        }
    }

    /// An answer of judging, and the file that it is about.
    pub fn judged(&mut self, file: &[u8], answer: &[u64; 9]) {
        let &[refusal, _, raced, first, second, _, strands, english, hebrew] = answer;
        self.calls += 1;
        if refusal != 0 {
            return self.refusal(refusal);
        }
        if raced == 0 {
            self.clean += 1;
        } else if let Some(kinds) = kinds(file, first, second) {
            self.races[kinds] += 1;
        }
        self.respaced += u64::from(english.max(hebrew) > strands);
        self.most_strands = self.most_strands.max(strands);
    }

    /// An answer of judging every record, and the lists that it left.
    pub fn judged_records(&mut self, answer: &[u64; 6], lists: &Lists) {
        let &[refusal, _, raced, ..] = answer;
        self.calls += 1;
        self.short_lists += u64::from(refusal == 16);
        if refusal != 0 {
            return self.refusal(refusal);
        }
        self.raced[raced.min(2) as usize] += 1;
        self.most_raced = self.most_raced.max(raced);
        let records: Vec<u64> = lists.raced(raced).map(|[record, ..]| record).collect();
        self.clean_between += u64::from(records.windows(2).any(|pair| pair[0] + 1 < pair[1]));
    }

    pub fn asked(&mut self, answer: &[u64; 3]) {
        self.calls += 1;
        match answer {
            [0, _, relation] => self.relations[*relation as usize % 4] += 1,
            [refusal, ..] => self.refusal(*refusal),
        }
    }

    pub fn wrote(&mut self, answer: &[u64; 3]) {
        self.calls += 1;
        match answer {
            [0, ..] => self.written += 1,
            [refusal, ..] => self.refusal(*refusal),
        }
    }
}

/// Which of `KINDS` the two events of an accepted file are.
fn kinds(file: &[u8], first: u64, second: u64) -> Option<usize> {
    let events = second::read(file).ok()?.events;
    let letter = |at: u64| events.get(4 * at as usize).map(|&kind| if kind == 5 { 'W' } else { 'R' });
    let both = [letter(first)?, letter(second)?];
    KINDS.iter().position(|kinds| kinds.chars().eq(both))
}

impl fmt::Display for Tally {
    fn fmt(&self, f: &mut fmt::Formatter<'_>) -> fmt::Result {
        let listed = |names: &[&str], counts: &[u64]| -> String {
            names.iter().zip(counts).map(|(name, count)| format!(" {name} {count}")).collect()
        };
        let numbers: Vec<String> = (1..19).map(|number| number.to_string()).collect();
        let numbers: Vec<&str> = numbers.iter().map(String::as_str).collect();
        let [judge, records] = self.programs;
        writeln!(f, "files {} calls {} runs of judge {judge} of records {records}", self.files, self.calls)?;
        if self.calls == 0 {
            return Ok(());
        }
        writeln!(f, "judged: clean {} races{}", self.clean, listed(&KINDS, &self.races))?;
        writeln!(f, "        with a respacing {} most strands {}", self.respaced, self.most_strands)?;
        writeln!(f, "every record: raced{} most {}", listed(&RACED, &self.raced), self.most_raced)?;
        writeln!(f, "        with a clean one between {} a list too short {}", self.clean_between, self.short_lists)?;
        writeln!(f, "asked:{}", listed(&RELATIONS, &self.relations))?;
        writeln!(f, "written: {}", self.written)?;
        writeln!(f, "refused, by number:{}", listed(&numbers, &self.refusals[1..]))
    }
}
