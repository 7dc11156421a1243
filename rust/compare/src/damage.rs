//! Damaged files: one way for each refusal that a file can have, and damage by chance.

use crate::jobs::{job, Draft};
use crate::random::Random;
use crate::script::{read, write, END, SPAWN, SYNC};

/// A job file with one damage or two, or with bits and bytes changed by chance.
pub fn damaged(random: &mut Random) -> Vec<u8> {
    let mut draft = job(random);
    for _ in 0..random.pick(&[0, 1, 1, 1, 1, 2, 2]) {
        wound(random, &mut draft);
    }
    let mut file = draft.file();
    for _ in 0..random.pick(&[0, 0, 0, 0, 1, 1, 2]) {
        scratch(random, &mut file);
    }
    file
}

/// Damages a draft in the way of one refusal of 2 to 13. (Under 16 bytes it comes to by `scratch`.)
pub fn wound(random: &mut Random, draft: &mut Draft) {
    match random.within(2, 13) {
        2 => draft.mark[random.below(4)] ^= 1 << random.below(8),
        3 => draft.records = random.pick(&[0, 4097, 4098, 65_536, 1 << 31, u32::MAX]),
        4 => too_many_events(random, draft),
        5 => draft.distance = Some(wrong_distance(random, 4 * draft.events.len() as u32)),
        6 => too_far(random, draft),
        7 => bad_name(random, draft),
        8 => {
            let bad = bad_event(random);
            replace(random, draft, bad);
        }
        9 => {
            let record = random.pick(&[draft.records, draft.records.saturating_add(1), u32::from(u16::MAX)]) as u16;
            let access = random.pick(&[read(record), write(record)]);
            replace(random, draft, access);
        }
        10 => insert_at_root(random, draft, &[END]),
        11 => insert_at_root(random, draft, &[SPAWN; 64]),
        12 => too_many_strands(random, draft),
        _ => left_open(random, draft),
    }
}

fn too_many_events(random: &mut Random, draft: &mut Draft) {
    let count = random.pick(&[1_000_001, 1 << 30, (1 << 30) + draft.events.len() as u32, u32::MAX]);
    draft.count = Some(count);
    if random.percent(50) {
        draft.distance = Some(count.wrapping_mul(4));
    }
}

fn wrong_distance(random: &mut Random, right: u32) -> u32 {
    let wrong =
        [right + 1, right + 4, right.wrapping_sub(1), right.wrapping_sub(4), 0, u32::MAX, random.number() as u32];
    random.pick(&wrong)
}

/// Distance and event count fit each other, and not the file.
fn too_far(random: &mut Random, draft: &mut Draft) {
    let more = draft.name.len() / 4 + random.pick(&[1, 1, 2, 1000, 990_000]);
    let count = (draft.events.len() + more).min(1_000_000) as u32;
    draft.count = Some(count);
    draft.distance = Some(4 * count);
}

fn bad_name(random: &mut Random, draft: &mut Draft) {
    if draft.name.is_empty() || random.percent(30) {
        let length = random.pick(&[65, 66, 68, 300]);
        draft.name.resize(length, b'n');
    } else {
        let at = random.below(draft.name.len());
        draft.name[at] = random.pick(&[0, 10, 31, 127, 128, 255]);
    }
}

fn bad_event(random: &mut Random) -> [u8; 4] {
    let kind = random.within(1, 5) as u8;
    match random.below(4) {
        0 => [random.pick(&[0, 6, 7, 8, 255]), 0, 0, 0],
        1 => [kind, random.within(1, 255) as u8, 0, 0],
        2 => [random.within(1, 3) as u8, 0, random.within(1, 255) as u8, 0],
        _ => [random.within(1, 3) as u8, 0, 0, random.within(1, 255) as u8],
    }
}

/// Puts an event in the place of another, or adds it at the end.
fn replace(random: &mut Random, draft: &mut Draft, event: [u8; 4]) {
    let at = random.below(draft.events.len() + 1);
    draft.events.splice(at..(at + 1).min(draft.events.len()), [event]);
}

/// Puts events where only the root is open.
fn insert_at_root(random: &mut Random, draft: &mut Draft, events: &[[u8; 4]]) {
    let mut open = 1;
    let mut places = vec![0];
    for (at, &event) in draft.events.iter().enumerate() {
        open += usize::from(event == SPAWN);
        open -= usize::from(event == END && open > 1);
        if open == 1 {
            places.push(at + 1);
        }
    }
    let at = random.pick(&places);
    draft.events.splice(at..at, events.iter().copied());
}

/// The events that begin 4,096 strands and then another, by a spawn, an end or a sync.
fn too_many_strands(random: &mut Random, draft: &mut Draft) {
    let pairs = |count: usize| [SPAWN, END].repeat(count);
    let events = match random.below(3) {
        0 => [&[SPAWN, END, SYNC][..], &pairs(2046), &[SPAWN]].concat(),
        1 => pairs(2048),
        _ => [&[SPAWN, END, SYNC][..], &pairs(2046), &[SYNC, SYNC]].concat(),
    };
    insert_at_root(random, draft, &events);
}

fn left_open(random: &mut Random, draft: &mut Draft) {
    match draft.events.iter().rposition(|&event| event == END) {
        Some(last) if random.percent(50) => drop(draft.events.remove(last)),
        _ => draft.events.push(SPAWN),
    }
}

/// Changes bytes without a view to what they mean.
fn scratch(random: &mut Random, file: &mut Vec<u8>) {
    let length = file.len();
    match random.below(6) {
        0 if length > 0 => file[random.below(length)] ^= 1 << random.below(8),
        1 if length > 0 => file[random.below(length)] = random.number() as u8,
        2 => file.truncate(random.below(length + 1)),
        3 => drop(file.drain(..random.below(length + 1))),
        4 => file.truncate(random.below(20)),
        _ => file.push(random.number() as u8),
    }
}
