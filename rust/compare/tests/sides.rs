//! The comparison itself: the second program agrees with itself on files that show everything, and each flaw is found.

use compare::calls::{Calls, Second};
use compare::differ::Sides;
use compare::files::{generated, limits};
use compare::random::Random;
use compare::tally::Tally;
use second::{LABELS, LINKS, PLACES};

const SEED: u64 = 11;

#[test]
fn the_files_of_a_run_show_everything() {
    let mut sides = Sides { one: &Second, other: &Second, tally: Tally::default() };
    for (number, (what, file)) in limits().iter().enumerate() {
        assert_eq!(sides.difference(&mut Random::of_file(SEED, number as u64), file), None, "{what}");
    }
    for number in 0..600 {
        assert_eq!(
            sides.difference(&mut Random::of_file(SEED, number), &generated(SEED, number)),
            None,
            "file {number}"
        );
    }
    let Tally { raced, clean_between, short_lists, most_raced, .. } = sides.tally;
    assert!(raced.iter().chain([&clean_between, &short_lists]).all(|&count| count >= 50));
    assert_eq!(most_raced, 4096);
    let Tally { refusals, clean, races, relations, respaced, most_strands, written, .. } = sides.tally;
    let unseen: Vec<usize> = (1..19).filter(|&number| number != 17 && refusals[number] < 3).collect();
    assert!(unseen.is_empty(), "refusals not seen three times: {unseen:?}");
    assert_eq!(refusals[17], 0);
    assert!(races.iter().chain(&relations).chain([&clean, &respaced, &written]).all(|&count| count >= 10));
    assert_eq!(most_strands, 4096);
}

/// The second program with one flaw.
struct Flawed(&'static str);

impl Flawed {
    fn has(&self, flaw: &str) -> u64 {
        u64::from(self.0 == flaw)
    }
}

impl Calls for Flawed {
    fn read(&self, file: &[u8]) -> [u64; 6] {
        let mut answer = Second.read(file);
        answer[1] += self.has("event of a refusal") * u64::from(answer[0] == 10);
        answer
    }

    fn write(&self, name: &[u8], records: u64, events: &[u8], out: &mut [u8]) -> [u64; 3] {
        let answer = Second.write(name, records, events, out);
        if self.has("a byte past the file") == 1 && answer[0] == 0 && out.len() as u64 > answer[2] {
            out[answer[2] as usize] ^= 1;
        }
        if self.has("a byte stored at refusal 16") == 1 && answer[0] == 16 && !out.is_empty() {
            out[0] ^= 1;
        }
        answer
    }

    fn question(&self, file: &[u8], i: u64, j: u64) -> [u64; 3] {
        let flip = self.has("before for after") == 1 && i > j;
        Second.question(file, if flip { j } else { i }, if flip { i } else { j })
    }

    fn judge(&self, file: &[u8], k: u64, labels: &mut [u64], links: &mut [u16], places: &mut [u32]) -> [u64; 9] {
        let mut answer = Second.judge(file, k, labels, links, places);
        let strands = answer[6] as usize;
        if answer[0] != 0 {
            if self.has("a label stored at refusal 15") == 1 && answer[0] == 15 && !labels.is_empty() {
                labels[0] ^= 1;
            }
            return answer;
        }
        answer[7] += self.has("every respaced label counted") * u64::from(answer[7] > 250);
        if self.has("the label of a strand not begun") == 1 && strands < 4096 {
            labels[strands] ^= 1;
        }
        links[8192 + strands - 1] ^= self.has("a Hebrew link") as u16;
        if self.has("the place of a record past the count") == 1 && places.len() > 16384 {
            places[16384] ^= 1;
        }
        answer[4] += self.has("the one race has another second") * answer[2];
        if answer[2] == 0 {
            answer[2] = self.has("a race where no record has one");
        }
        if answer[2] == 1 {
            places[answer[5] as usize] ^= self.has("the racing access stored") as u32;
        }
        answer
    }

    fn judge_records(
        &self,
        file: &[u8],
        k: u64,
        labels: &mut [u64],
        links: &mut [u16],
        places: &mut [u32],
        [records, firsts, seconds]: [&mut [u32]; 3],
    ) -> [u64; 6] {
        let k = if self.0 == "no event after the first race" { until_race(file, k) } else { k };
        let mut answer = Second.judge_records(file, k, labels, links, places, [records, firsts, seconds]);
        let raced = answer[2] as usize;
        let enough = Second.read(file)[5] as usize;
        let short = records.len().min(firsts.len()).min(seconds.len()) < enough;
        match (self.0, answer[0]) {
            ("16 before 14", 14) | ("16 before 15", 15) if short => answer[0] = 16,
            ("an entry stored at refusal 16", 16) if !firsts.is_empty() => firsts[0] ^= 1,
            ("lists for the raced records are enough", 16) => {
                let mut lists = [records, firsts, seconds].map(|list| (list, vec![0; enough]));
                let longer = lists.each_mut().map(|(_, longer)| longer.as_mut_slice());
                answer = Second.judge_records(file, k, labels, links, places, longer);
                for (list, longer) in &mut lists {
                    let stored = list.len().min(answer[2] as usize);
                    list[..stored].copy_from_slice(&longer[..stored]);
                }
            }
            ("an entry past the count stored", 0) if raced < seconds.len() => seconds[raced] ^= 1,
            ("the lists in the order of the races", 0) => {
                let mut pairs: Vec<_> = (0..raced).map(|at| (seconds[at], firsts[at], records[at])).collect();
                pairs.sort_unstable();
                for (at, pair) in pairs.into_iter().enumerate() {
                    (seconds[at], firsts[at], records[at]) = pair;
                }
            }
            ("the first of another record", 0) if raced > 1 => firsts[0] = firsts[1],
            ("the places of a raced record move on", 0) if raced > 0 => places[records[0] as usize] = seconds[0],
            _ => {}
        }
        answer
    }
}

/// How many of the first k events are judged up to the first race, the racing one counted.
fn until_race(file: &[u8], k: u64) -> u64 {
    match Second.judge(file, k, &mut [0; LABELS], &mut [0; LINKS], &mut [0; PLACES]) {
        [0, _, 1, _, second, ..] => second + 1,
        _ => k,
    }
}

/// Whether some file of a run shows a difference.
fn found(one: &dyn Calls, other: &dyn Calls) -> bool {
    let mut sides = Sides { one, other, tally: Tally::default() };
    (0..2000).any(|number| sides.difference(&mut Random::of_file(SEED, number), &generated(SEED, number)).is_some())
}

#[test]
fn each_flaw_is_found() {
    let flaws = [
        "event of a refusal",
        "a byte past the file",
        "a byte stored at refusal 16",
        "before for after",
        "a label stored at refusal 15",
        "every respaced label counted",
        "the label of a strand not begun",
        "a Hebrew link",
        "the place of a record past the count",
        "the racing access stored",
        "no event after the first race",
        "16 before 14",
        "16 before 15",
        "an entry stored at refusal 16",
        "lists for the raced records are enough",
        "an entry past the count stored",
        "the lists in the order of the races",
        "the first of another record",
        "the places of a raced record move on",
    ];
    for flaw in flaws {
        assert!(found(&Second, &Flawed(flaw)), "{flaw}");
    }
}

/// Two sides that agree are not enough: the one race must be that of the records' races with the smallest second.
#[test]
fn calls_that_do_not_belong_together_are_found() {
    let flawed = Flawed("the lists in the order of the races");
    assert!(!found(&flawed, &flawed));
    for flaw in ["the one race has another second", "a race where no record has one"] {
        assert!(found(&Flawed(flaw), &Flawed(flaw)), "{flaw}");
    }
}
