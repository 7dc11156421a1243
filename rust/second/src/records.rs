//! Judging every record: past each race to the last of the k events, with the raced records listed in record order.

use crate::file::{read, refused, Refusal};
use crate::judge::{check_lent, named, store_places, trace_of, Orders, Race};
use crate::race::{places, seconds};

/// What judging every record gives: the races in record order, the strands begun and both label counts.
#[derive(Clone, Debug, PartialEq, Eq)]
pub struct JudgedRecords {
    pub races: Vec<Race>,
    pub strands: u64,
    pub english: u64,
    pub hebrew: u64,
}

/// Judges the first k events of a file, all of them: "three lists of 32 bits take record, first, second from entry 0, the rest stays".
pub fn judge_records(
    file: &[u8],
    k: u64,
    labels: &mut [u64],
    links: &mut [u16],
    places_out: &mut [u32],
    lists: [&mut [u32]; 3],
) -> Result<JudgedRecords, Refusal> {
    let job = read(file)?;
    let trace = trace_of(&job)?;
    check_lent(&trace, k, [labels.len(), links.len(), places_out.len()])?;
    let (k, records) = (k as usize, job.records as usize);
    let orders = Orders::by(&trace, k)?;
    if lists.iter().any(|list| list.len() < records) {
        return refused(16);
    }
    let seconds = seconds(&trace, records, k);
    // "A record's places freeze at its race."
    let until: Vec<usize> = seconds.iter().map(|second| second.unwrap_or(k)).collect();
    let places = places(&trace, &until);
    let races: Vec<Race> = seconds.into_iter().flatten().map(|second| named(&trace, &places, second)).collect();
    orders.store(labels, links);
    store_places(&trace, &places, places_out);
    store_lists(&races, lists);
    let [strands, english, hebrew] = orders.counts();
    Ok(JudgedRecords { races, strands, english, hebrew })
}

fn store_lists(races: &[Race], lists: [&mut [u32]; 3]) {
    let [records, firsts, seconds] = lists;
    for (entry, race) in races.iter().enumerate() {
        records[entry] = race.record as u32;
        firsts[entry] = race.first as u32;
        seconds[entry] = race.second as u32;
    }
}
