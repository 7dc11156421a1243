//! Judging a job and the question about two accesses, with the work buffers filled as the rules say.

use crate::file::{decoded, read, refused, Job, Refusal};
use crate::orders::{english, hebrew, Order};
use crate::race::{first, places, second, Places};
use crate::trace::{Event, Trace};

/// The lengths of the work buffers.
pub const LABELS: usize = 8192;
pub const LINKS: usize = 16384;
pub const PLACES: usize = 16384;

const HALF_OF_LABELS: usize = LABELS / 2;
const HALF_OF_LINKS: usize = LINKS / 2;
const BACK: usize = 4096;
const STRAND: usize = 4096;
const STANDING: usize = 8192;
const NO_LINK: u16 = u16::MAX;
const NO_PLACE: u32 = u32::MAX;

/// A race: its two events, its record, and for the line whether each of the two writes.
#[derive(Clone, Copy, Debug, PartialEq, Eq)]
pub struct Race {
    pub first: u64,
    pub second: u64,
    pub record: u64,
    pub writes: [bool; 2],
}

/// What judging gives: clean or a race, the strands begun and both label counts.
#[derive(Clone, Copy, Debug, PartialEq, Eq)]
pub struct Judged {
    pub race: Option<Race>,
    pub strands: u64,
    pub english: u64,
    pub hebrew: u64,
}

/// "answers 0 same event, 1 first before second, 2 second before first, 3 parallel".
#[derive(Clone, Copy, Debug, PartialEq, Eq)]
pub enum Relation {
    Same = 0,
    Before = 1,
    After = 2,
    Parallel = 3,
}

/// Judges the first k events of a file, or fewer if a race is met.
pub fn judge(
    file: &[u8],
    k: u64,
    labels: &mut [u64],
    links: &mut [u16],
    places_out: &mut [u32],
) -> Result<Judged, Refusal> {
    let job = read(file)?;
    let trace = trace_of(&job)?;
    check_lent(&trace, k, [labels.len(), links.len(), places_out.len()])?;
    let second = second(&trace, k as usize);
    let until = second.unwrap_or(k as usize);
    let orders = Orders::by(&trace, until)?;
    let places = places(&trace, &vec![until; job.records as usize]);
    orders.store(labels, links);
    store_places(&trace, &places, places_out);
    let race = second.map(|second| named(&trace, &places, second));
    let [strands, english, hebrew] = orders.counts();
    Ok(Judged { race, strands, english, hebrew })
}

/// How event i of a file stands to event j: "15 for each number, then 18 for each".
pub fn question(file: &[u8], i: u64, j: u64) -> Result<Relation, Refusal> {
    let trace = trace_of(&read(file)?)?;
    let count = trace.events.len() as u64;
    if i >= count || j >= count {
        return refused(15);
    }
    let (i, j) = (i as usize, j as usize);
    if trace.events[i].record().is_none() || trace.events[j].record().is_none() {
        return refused(18);
    }
    Ok(match i.cmp(&j) {
        std::cmp::Ordering::Equal => Relation::Same,
        _ if trace.parallel(i.min(j), i.max(j)) => Relation::Parallel,
        std::cmp::Ordering::Less => Relation::Before,
        std::cmp::Ordering::Greater => Relation::After,
    })
}

pub fn trace_of(job: &Job) -> Result<Trace, Refusal> {
    decoded(job.events, job.records).map(Trace::of)
}

/// 15 for k, then 14 for the lengths of the work buffers: labels, links, places.
pub fn check_lent(trace: &Trace, k: u64, lengths: [usize; 3]) -> Result<(), Refusal> {
    if k > trace.events.len() as u64 {
        return refused(15);
    }
    if lengths.into_iter().zip([LABELS, LINKS, PLACES]).any(|(length, least)| length < least) {
        return refused(14);
    }
    Ok(())
}

/// The race of the record that event `second` accesses, whose places show the state before that event.
pub fn named(trace: &Trace, places: &[Places], second: usize) -> Race {
    let record = trace.events[second].record().unwrap_or_default();
    let first = first(trace, &places[usize::from(record)], second);
    let writes = [first, second].map(|at| matches!(trace.events[at], Event::Write(_)));
    Race { first: first as u64, second: second as u64, record: u64::from(record), writes }
}

/// Both orders after some events.
pub struct Orders {
    english: Order,
    hebrew: Order,
}

impl Orders {
    /// The orders of the strands begun by position `until`; 17 if there is no room for them.
    pub fn by(trace: &Trace, until: usize) -> Result<Orders, Refusal> {
        let strands = trace.strands_by(until);
        Ok(Orders { english: english(strands)?, hebrew: hebrew(trace, strands)? })
    }

    pub fn store(&self, labels: &mut [u64], links: &mut [u16]) {
        store_order(&self.english, &mut labels[..HALF_OF_LABELS], &mut links[..HALF_OF_LINKS]);
        store_order(&self.hebrew, &mut labels[HALF_OF_LABELS..LABELS], &mut links[HALF_OF_LINKS..LINKS]);
    }

    /// The strands begun and both label counts.
    pub fn counts(&self) -> [u64; 3] {
        [self.english.strands.len() as u64, self.english.count, self.hebrew.count]
    }
}

/// Labels and links of an order's strands, into that order's half of each buffer; no other entry.
fn store_order(order: &Order, labels: &mut [u64], links: &mut [u16]) {
    labels[..order.labels.len()].copy_from_slice(&order.labels);
    let link = |place: Option<usize>| place.and_then(|place| order.strands.get(place)).map_or(NO_LINK, |&s| s as u16);
    for (place, &strand) in order.strands.iter().enumerate() {
        links[strand] = link(Some(place + 1));
        links[BACK + strand] = link(place.checked_sub(1));
    }
}

/// The places of the records below the record count; no other entry.
pub fn store_places(trace: &Trace, places: &[Places], out: &mut [u32]) {
    let event = |place: Option<usize>| place.map_or(NO_PLACE, |at| at as u32);
    let strand = |place: Option<usize>| place.map_or(NO_PLACE, |at| trace.strand(at) as u32);
    for (record, place) in places.iter().enumerate() {
        out[record] = event(place.last_write);
        out[STRAND + record] = strand(place.last_write);
        out[STANDING + record] = event(place.standing_read);
        out[STANDING + STRAND + record] = strand(place.standing_read);
    }
}
