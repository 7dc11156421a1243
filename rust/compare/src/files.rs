//! The files of a run: first the rules' small jobs and jobs at and just past each limit, then generated and damaged ones.

use crate::damage::damaged;
use crate::jobs::{self, Draft};
use crate::random::Random;
use crate::script::{read, write, END, SPAWN, SYNC};

const SMALL_JOBS: [&str; 16] = [
    "",
    "W0 R0",
    "S W0 E W0",
    "S W0 E J W0",
    "S R0 E R0 W0",
    "S R0 W0 E W0",
    "S W0 E S W0 E",
    "S W0 E J S W0 E",
    "S S W0 E J E W0",
    "S W0 E S J W0 E",
    "name \"L4\" records 2: W0 S R0 W1 E R0 W1 J",
    // several records race, a clean one between; and raced ones are accessed further
    "S W1 W0 E W1 W0",
    "S W2 R1 W0 E R1 W2 R0",
    "W0 S R0 W1 E R0 W0 W1",
    "S W0 R1 E R0 J W0 R0 R1 S E",
    "S R0 E W0 S R0 E J R0 W0 W1 S W1 E R1",
];

/// A generated file of a seed, by its number: accepted, or damaged for the most part.
pub fn generated(seed: u64, number: u64) -> Vec<u8> {
    let mut random = Random::of_file(seed, number);
    if random.percent(60) {
        jobs::job(&mut random).file()
    } else {
        damaged(&mut random)
    }
}

/// The files at the limits, each with what it is.
pub fn limits() -> Vec<(String, Vec<u8>)> {
    let mut files = Vec::new();
    for text in SMALL_JOBS {
        files.push((text.to_string(), vjt::pack(text).expect("a text of this file")));
    }
    for (what, draft) in at_the_limits() {
        files.push((what.to_string(), draft.file()));
    }
    for count in 0..=70 {
        files.push((format!("{count} times S E"), job(1, pairs(count)).file()));
        files.push((format!("{count} times S E J"), job(1, [SPAWN, END, SYNC].repeat(count)).file()));
    }
    files
}

fn job(records: u32, events: Vec<[u8; 4]>) -> Draft {
    Draft::new(Vec::new(), records, events)
}

fn named(length: usize) -> Draft {
    Draft::new(vec![b'~'; length], 1, vec![write(0)])
}

fn pairs(count: usize) -> Vec<[u8; 4]> {
    [SPAWN, END].repeat(count)
}

fn nested(depth: usize) -> Vec<[u8; 4]> {
    [[SPAWN].repeat(depth), [END].repeat(depth)].concat()
}

/// A child writes some records, and then the root does: each of them races.
fn raced(records: impl Iterator<Item = u16> + Clone, again: impl Iterator<Item = u16>) -> Draft {
    let written = [vec![SPAWN], records.map(write).collect(), vec![END], again.map(write).collect()].concat();
    job(4096, written)
}

/// 1,000,000 events, of which the last two race: one with a write, one with a read.
fn raced_at_the_end() -> Draft {
    let front = vec![SPAWN, write(1), read(0), END];
    job(3, [front, [read(2)].repeat(999_994), vec![read(1), write(0)]].concat())
}

fn at_the_limits() -> Vec<(&'static str, Draft)> {
    let all_but_one = [&[SPAWN, END, SYNC][..], &pairs(2046)].concat();
    let then = |event: [u8; 4]| [&all_but_one[..], &[event]].concat();
    vec![
        ("64 tasks open", job(1, nested(63))),
        ("65 tasks open", job(1, nested(64))),
        ("64 tasks open, time and again", job(1, [[SPAWN].repeat(62), pairs(900), [END].repeat(62)].concat())),
        ("4,096 strands, the last by a sync", job(1, [pairs(2047), vec![SYNC]].concat())),
        ("4,096 strands, the last by an end", job(1, all_but_one.clone())),
        ("a 4,097th strand by a spawn", job(1, then(SPAWN))),
        ("a 4,097th strand by an end", job(1, pairs(2048))),
        ("a 4,097th strand by a sync", job(1, then(SYNC))),
        ("4,096 strands by joins", job(1, [SPAWN, END, SYNC].repeat(1365))),
        ("4,096 records", job(4096, vec![write(4095), read(4095), SPAWN, read(4095), END, write(4095)])),
        ("4,096 records, all raced", raced(0..4096, 0..4096)),
        ("4,096 records, all raced, the last one first", raced(0..4096, (0..4096).rev())),
        ("4,096 records, every second raced", raced(0..4096, (0..2048).map(|half| 4095 - 2 * half))),
        ("4,096 records, the first and the last raced", raced([4095, 0].into_iter(), [4095, 0].into_iter())),
        ("4,097 records", job(4097, vec![read(0)])),
        ("no record", job(0, vec![])),
        ("a record at the record count", job(4096, vec![read(0), read(4096)])),
        ("a name of 64 bytes", named(64)),
        ("a name of 65 bytes", named(65)),
        (
            "1,000,000 events",
            job(1, [vec![SPAWN, write(0), END], [SYNC, read(0)].repeat(499_998), vec![SYNC]].concat()),
        ),
        ("1,000,000 events, the last two race", raced_at_the_end()),
        ("1,000,001 events", job(1, [read(0)].repeat(1_000_001))),
        ("65,536 bytes", job(1, [read(0)].repeat(16_380))),
        ("65,537 bytes", Draft::new(vec![b'n'], 1, [read(0)].repeat(16_380))),
        ("65,600 bytes", Draft::new(vec![b'n'; 64], 1, [read(0)].repeat(16_380))),
    ]
}
