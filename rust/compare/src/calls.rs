//! The calls of the C interface as a trait, and the second program behind it.

use second::{Judged, JudgedRecords, Refusal};

/// The calls, with answers as arrays of numbers, the refusal first.
pub trait Calls {
    /// Refusal, event, name length, events' start, events' length, records.
    fn read(&self, file: &[u8]) -> [u64; 6];
    /// Refusal, event, bytes written.
    fn write(&self, name: &[u8], records: u64, events: &[u8], out: &mut [u8]) -> [u64; 3];
    /// Refusal, event, answer.
    fn question(&self, file: &[u8], i: u64, j: u64) -> [u64; 3];
    /// Refusal, event, raced, first, second, record, strands, English count, Hebrew count.
    fn judge(&self, file: &[u8], k: u64, labels: &mut [u64], links: &mut [u16], places: &mut [u32]) -> [u64; 9];
    /// Refusal, event, records raced, strands, English count, Hebrew count. The lists are record, first, second.
    fn judge_records(
        &self,
        file: &[u8],
        k: u64,
        labels: &mut [u64],
        links: &mut [u16],
        places: &mut [u32],
        lists: [&mut [u32]; 3],
    ) -> [u64; 6];
}

/// The second program.
pub struct Second;

impl Calls for Second {
    fn read(&self, file: &[u8]) -> [u64; 6] {
        match second::read(file) {
            Ok(job) => [0, 0, job.name.len() as u64, job.name.len() as u64, job.events.len() as u64, job.records],
            Err(refusal) => refused(refusal),
        }
    }

    fn write(&self, name: &[u8], records: u64, events: &[u8], out: &mut [u8]) -> [u64; 3] {
        second::write(name, records, events, out).map_or_else(refused, |written| [0, 0, written])
    }

    fn question(&self, file: &[u8], i: u64, j: u64) -> [u64; 3] {
        second::question(file, i, j).map_or_else(refused, |relation| [0, 0, relation as u64])
    }

    fn judge(&self, file: &[u8], k: u64, labels: &mut [u64], links: &mut [u16], places: &mut [u32]) -> [u64; 9] {
        second::judge(file, k, labels, links, places).map_or_else(refused, judged)
    }

    fn judge_records(
        &self,
        file: &[u8],
        k: u64,
        labels: &mut [u64],
        links: &mut [u16],
        places: &mut [u32],
        lists: [&mut [u32]; 3],
    ) -> [u64; 6] {
        let numbers = |judged: JudgedRecords| {
            let JudgedRecords { races, strands, english, hebrew } = judged;
            [0, 0, races.len() as u64, strands, english, hebrew]
        };
        second::judge_records(file, k, labels, links, places, lists).map_or_else(refused, numbers)
    }
}

/// "A refusal gives its number, the event number [..], zeros elsewhere".
pub fn refused<const N: usize>(refusal: Refusal) -> [u64; N] {
    let mut answer = [0; N];
    answer[0] = refusal.number;
    answer[1] = refusal.event;
    answer
}

/// The numbers of a judged job.
pub fn judged(judged: Judged) -> [u64; 9] {
    let Judged { race, strands, english, hebrew } = judged;
    let [raced, first, second, record] = race.map_or([0; 4], |race| [1, race.first, race.second, race.record]);
    [0, 0, raced, first, second, record, strands, english, hebrew]
}
