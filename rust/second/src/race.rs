//! Races, and the places of each record, by scanning the accesses.

use crate::trace::Trace;
use std::collections::{HashMap, HashSet};

/// What stands for a record: its last write and its standing read, by event number.
#[derive(Clone, Copy, Debug, Default, PartialEq, Eq)]
pub struct Places {
    pub last_write: Option<usize>,
    pub standing_read: Option<usize>,
}

/// "A race: two accesses to one record, at least one a write, parallel."
fn races(trace: &Trace, i: usize, j: usize) -> bool {
    let (one, other) = (trace.events[i], trace.events[j]);
    one.record() == other.record() && (one.is_write() || other.is_write()) && trace.parallel(i, j)
}

/// The earliest of some accesses, which come in the order of the events, that races with any earlier one of them.
/// Of accesses of one strand to one record of one kind only the first is tried: they all compare alike.
fn earliest(trace: &Trace, accesses: impl IntoIterator<Item = (usize, u16)>) -> Option<usize> {
    let mut tried = HashSet::new();
    let mut earlier: HashMap<u16, Vec<usize>> = HashMap::new();
    for (j, record) in accesses {
        if !tried.insert((trace.strand(j), record, trace.events[j].is_write())) {
            continue;
        }
        let earlier = earlier.entry(record).or_default();
        if earlier.iter().any(|&i| races(trace, i, j)) {
            return Some(j);
        }
        earlier.push(j);
    }
    None
}

/// The accesses among the first k events, each with its record.
fn accesses(trace: &Trace, k: usize) -> impl Iterator<Item = (usize, u16)> + '_ {
    (0..k).filter_map(|at| Some((at, trace.events[at].record()?)))
}

/// "The second is the earliest access that races with any earlier one", among the first k events.
pub fn second(trace: &Trace, k: usize) -> Option<usize> {
    earliest(trace, accesses(trace, k))
}

/// For each record the second "by the same rule taken within that record", among the first k events.
pub fn seconds(trace: &Trace, records: usize, k: usize) -> Vec<Option<usize>> {
    let mut of_record = vec![Vec::new(); records];
    for (at, record) in accesses(trace, k) {
        of_record[usize::from(record)].push((at, record));
    }
    of_record.into_iter().map(|accesses| earliest(trace, accesses)).collect()
}

/// "The first is the last earlier write of the record if that is parallel to the second; otherwise the standing read."
pub fn first(trace: &Trace, places: &Places, second: usize) -> usize {
    let write = places.last_write.filter(|&write| trace.parallel(write, second));
    write.or(places.standing_read).expect("a racing record has an earlier access in its places")
}

/// The places of each record after the events before a position, which is that record's own: `until` has one for each.
pub fn places(trace: &Trace, until: &[usize]) -> Vec<Places> {
    let mut places = vec![Places::default(); until.len()];
    for (at, event) in trace.events.iter().enumerate() {
        let Some(record) = event.record().map(usize::from) else { continue };
        if at >= until[record] {
            continue;
        }
        let place = &mut places[record];
        if event.is_write() {
            place.last_write = Some(at);
        } else if place.standing_read.is_none_or(|standing| !trace.parallel(standing, at)) {
            // "The first read of a record stands; a later read takes its place exactly if the standing one is before it."
            place.standing_read = Some(at);
        }
    }
    places
}

#[cfg(test)]
mod tests {
    use super::*;
    use crate::file::{decoded, read};

    fn trace(text: &str) -> Trace {
        let file = vjt::pack(text).expect("a text of this file");
        let job = read(&file).expect("accepted");
        Trace::of(decoded(job.events, job.records).expect("accepted"))
    }

    /// The sentence word by word: every access of the record, every earlier one.
    fn second_word_by_word(trace: &Trace, record: usize, k: usize) -> Option<usize> {
        let of_record = |at: usize| trace.events[at].record().map(usize::from) == Some(record);
        (0..k).find(|&j| of_record(j) && (0..j).any(|i| races(trace, i, j)))
    }

    #[test]
    fn seconds_are_the_sentence() {
        let jobs = [
            "S W1 W0 E W1 W0",
            "R0 S R0 R1 R1 W1 E R0 R0 W0 R1 J W0 W1 R2",
            "S S W0 R1 E R0 W2 E R1 W1 S R2 E W2 J W0 R0",
            "W2 S R0 R0 S R0 R1 E W1 W1 J R1 E R2 W0 W0 R1 W2",
            "S R0 E S R0 R1 E S W1 W2 E R2 R2 W0 J W1 S W2 E R2",
        ];
        for job in jobs {
            let trace = trace(job);
            for k in 0..=trace.events.len() {
                let naive: Vec<_> = (0..3).map(|record| second_word_by_word(&trace, record, k)).collect();
                assert_eq!(seconds(&trace, 3, k), naive, "{job}: {k} events");
                assert_eq!(second(&trace, k), naive.into_iter().flatten().min(), "{job}: {k} events");
            }
        }
    }
}
