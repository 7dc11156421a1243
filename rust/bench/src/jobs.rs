//! The jobs that are timed. None of them races: judging would stop early, and little would be timed.

use crate::check::check;
use compare::jobs::{any_access, events, Draft, Racing, Shape};
use compare::random::Random;
use compare::script::{END, SPAWN, SYNC};
use std::iter::repeat_with;

/// The lengths of the jobs that show how time grows.
const LENGTHS: [usize; 6] = [1_000, 4_000, 16_000, 64_000, 256_000, 1_000_000];

const DEEP: Shape = Shape {
    events: 16_000,
    open: 64,
    records: 4096,
    spawns: 3,
    ends: 2,
    syncs: 1,
    accesses: 15,
    writes: 40,
    racing: Racing::None,
};

/// At most two tasks open.
const FLAT: Shape = Shape { open: 2, spawns: 7, ends: 7, ..DEEP };

/// A row of a table: what the jobs are, and their files.
pub struct Row {
    pub what: String,
    pub files: Vec<Vec<u8>>,
}

impl Row {
    fn new(what: &str, files: Vec<Vec<u8>>) -> Row {
        Row { what: what.to_string(), files }
    }
}

/// Whole jobs of about 16,000 events, half of them deep and half flat.
pub fn judging(seed: u64, jobs: usize) -> Vec<Row> {
    let half = (jobs / 2).max(1);
    vec![
        Row::new("deep", generated(seed, DEEP).take(half).collect()),
        Row::new("flat", generated(seed, FLAT).take(half).collect()),
    ]
}

/// Jobs that only begin strands, 4,096 with the root: 4,095 insertions in each order.
pub fn orders(seed: u64, jobs: usize) -> Vec<Row> {
    let repeated = |events: Vec<[u8; 4]>| vec![Draft::new(Vec::new(), 1, events).file(); jobs];
    let scattered = Shape { events: 5_000, records: 1, spawns: 4, ends: 4, accesses: 0, writes: 0, ..DEEP };
    vec![
        Row::new("appending (S E J)", repeated([SPAWN, END, SYNC].repeat(1365))),
        Row::new("at one place (S E)", repeated([[SPAWN, END].repeat(2047), vec![SYNC]].concat())),
        Row::new("scattered", generated(seed, scattered).take(jobs).collect()),
    ]
}

/// Jobs of exactly so many events, for each length; more of the short ones.
pub fn growth(seed: u64) -> impl Iterator<Item = Row> {
    LENGTHS.into_iter().map(move |length| {
        let files = (0..).filter_map(|number| grown(&mut Random::of_file(seed, number), length));
        Row::new(&length.to_string(), files.take((200_000 / length).clamp(3, 100)).collect())
    })
}

/// A job of so many events: up to 16,000 a deep one. The 16,000th event of a longer job is a sync that leaves nothing to be joined, and
/// past it the root accesses records drawn from all, which cannot race. None if the deep part came out longer, or has no strand left
/// for its sync.
fn grown(random: &mut Random, length: usize) -> Option<Vec<u8>> {
    let longer = length > DEEP.events;
    let deep = length.min(DEEP.events) - usize::from(longer);
    let mut events = events(random, &Shape { events: deep, ..DEEP });
    if events.len() != deep {
        return None;
    }
    if longer {
        events.push(SYNC);
        events.extend(repeat_with(|| any_access(random, &DEEP)).take(length - DEEP.events));
    }
    Some(file(events, &DEEP)).filter(|file| check(file).is_ok())
}

/// The files of a seed and a shape.
fn generated(seed: u64, shape: Shape) -> impl Iterator<Item = Vec<u8>> {
    (0..).map(move |number| file(events(&mut Random::of_file(seed, number), &shape), &shape))
}

fn file(events: Vec<[u8; 4]>, shape: &Shape) -> Vec<u8> {
    Draft::new(b"timed".to_vec(), shape.records as u32, events).file()
}
