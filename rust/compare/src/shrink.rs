//! Makes a file that shows a difference smaller, as long as the difference stays.

use crate::jobs::Draft;
use crate::script::{END, SPAWN};

/// How often a smaller file is tried at most.
const TRIES: usize = 3000;

/// The smallest file found for which `differs` holds, as it does for `file`; only accepted files become smaller.
pub fn shrink(file: &[u8], mut differs: impl FnMut(&[u8]) -> bool) -> Vec<u8> {
    let Ok(job) = second::read(file) else { return file.to_vec() };
    let events = job.events.chunks_exact(4).map(|four| [four[0], four[1], four[2], four[3]]).collect();
    let mut draft = Draft::new(job.name.to_vec(), job.records as u32, events);
    let mut tries = 0;
    let mut at = 0;
    while at < draft.events.len() && tries < TRIES {
        let smaller = lessened(&draft.events, at).into_iter().map(|events| Draft { events, ..draft.clone() });
        let found = smaller.into_iter().find(|smaller| {
            tries += 1;
            differs(&smaller.file())
        });
        match found {
            Some(smaller) => draft = smaller,
            None => at += 1,
        }
    }
    draft.file()
}

/// The events without the tail from `at`, without some run from there, and without the task or the event there.
fn lessened(events: &[[u8; 4]], at: usize) -> Vec<Vec<[u8; 4]>> {
    let without = |from: usize, to: usize| [&events[..from], &events[to..]].concat();
    let mut less: Vec<_> =
        [256, 16, 1].iter().filter(|&&run| at + run <= events.len()).map(|run| without(at, at + run)).collect();
    if let Some(end) = matching_end(events, at) {
        less.insert(0, without(at, end + 1));
        let mut opened = without(end, end + 1);
        opened.remove(at);
        less.push(opened);
    }
    less
}

/// The end of the task that is spawned at `at`.
fn matching_end(events: &[[u8; 4]], at: usize) -> Option<usize> {
    let mut open = 0;
    (at..events.len())
        .find(|&here| {
            open += i32::from(events[here] == SPAWN);
            open -= i32::from(events[here] == END);
            open <= 0
        })
        .filter(|_| events[at] == SPAWN)
}

#[cfg(test)]
mod tests {
    use super::*;

    #[test]
    fn a_race_shrinks_to_the_smallest_one() {
        let file = vjt::pack("R1 S R2 S W1 E J R0 W0 E S R1 E W2 R0 J S R1 E").expect("a text of this file");
        let small = shrink(&file, |file| second::line(file).starts_with(b"race"));
        assert_eq!(vjt::show(&small), "name \"\" records 3: S W0 E R0\n");
    }
}
