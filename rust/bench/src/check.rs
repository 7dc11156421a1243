//! The check of a whole file: its trailer, its name, and in one pass its events.

use crate::event::{decode, Event};
use crate::order::STRANDS;
use second::Refusal;

pub const MOST_OPEN: usize = 64;

/// An accepted file: where its events start, how many they are, and the record count.
#[derive(Clone, Copy, Debug)]
pub struct Accepted {
    pub start: usize,
    pub count: usize,
    pub records: usize,
}

pub fn refused<T>(number: u64) -> Result<T, Refusal> {
    Err(Refusal { number, event: 0 })
}

/// Checks a whole file.
pub fn check(file: &[u8]) -> Result<Accepted, Refusal> {
    check_by(file, check_events)
}

/// Checks a whole file, its events by a pass that is given them and the record count.
pub fn check_by(file: &[u8], check_events: fn(&[[u8; 4]], usize) -> Result<(), Refusal>) -> Result<Accepted, Refusal> {
    let accepted = check_trailer(file)?;
    let name = &file[..accepted.start];
    if name.len() > 64 || name.iter().any(|&byte| !(32..=126).contains(&byte)) {
        return refused(7);
    }
    check_events(accepted.events(file, accepted.count), accepted.records)?;
    Ok(accepted)
}

impl Accepted {
    /// The first k events of the file.
    pub fn events<'a>(&self, file: &'a [u8], k: usize) -> &'a [[u8; 4]] {
        file[self.start..self.start + 4 * k].as_chunks().0
    }
}

fn check_trailer(file: &[u8]) -> Result<Accepted, Refusal> {
    let Some((before, trailer)) = file.split_last_chunk::<16>() else { return refused(1) };
    let number =
        |at: usize| u32::from_le_bytes([trailer[at], trailer[at + 1], trailer[at + 2], trailer[at + 3]]) as usize;
    let (distance, count, records) = (number(0), number(4), number(8));
    if trailer[12..] != *b"VJT1" {
        return refused(2);
    }
    if records == 0 || records > 4096 {
        return refused(3);
    }
    if count > 1_000_000 {
        return refused(4);
    }
    if distance != 4 * count {
        return refused(5);
    }
    if distance > before.len() {
        return refused(6);
    }
    Ok(Accepted { start: before.len() - distance, count, records })
}

fn check_events(events: &[[u8; 4]], records: usize) -> Result<(), Refusal> {
    let mut waiting = [false; MOST_OPEN];
    let (mut current, mut strands) = (0, 1);
    for (at, &bytes) in events.iter().enumerate() {
        let refused = |number| Err(Refusal { number, event: at as u64 });
        let Some(event) = decode(bytes) else { return refused(8) };
        match event {
            Event::Read(record) | Event::Write(record) => {
                if record >= records {
                    return refused(9);
                }
                continue;
            }
            Event::End if current == 0 => return refused(10),
            Event::Spawn if current + 1 == MOST_OPEN => return refused(11),
            Event::Spawn => {
                current += 1;
                waiting[current] = false;
                strands += 1;
            }
            Event::End => {
                current -= 1;
                waiting[current] = true;
                strands += 1;
            }
            Event::Sync => {
                strands += usize::from(waiting[current]);
                waiting[current] = false;
            }
        }
        if strands > STRANDS {
            return refused(12);
        }
    }
    if current > 0 {
        return refused(13);
    }
    Ok(())
}
