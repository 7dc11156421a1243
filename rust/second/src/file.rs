//! The job file: trailer, name and events, the refusals 1 to 13 in their order, and the writer.

use crate::trace::Event;

pub const MOST_RECORDS: u64 = 4096;
pub const MOST_EVENTS: u64 = 1_000_000;
pub const MOST_OPEN: usize = 64;
pub const MOST_STRANDS: usize = 4096;
const LONGEST_NAME: usize = 64;
const TRAILER: usize = 16;
const MARK: &[u8; 4] = b"VJT1";

/// "A refusal gives its number, the event number for 8 to 12 (otherwise 0)".
#[derive(Clone, Copy, Debug, PartialEq, Eq)]
pub struct Refusal {
    pub number: u64,
    pub event: u64,
}

/// A refusal that names no event.
pub fn refused<T>(number: u64) -> Result<T, Refusal> {
    Err(Refusal { number, event: 0 })
}

/// What reading gives: the name and the event part, both parts of the caller's file, and the record count.
#[derive(Clone, Copy, Debug, PartialEq, Eq)]
pub struct Job<'a> {
    pub name: &'a [u8],
    pub events: &'a [u8],
    pub records: u64,
}

/// Reads a whole job file: 1 to 7, then the events.
pub fn read(file: &[u8]) -> Result<Job<'_>, Refusal> {
    if file.len() < TRAILER {
        return refused(1);
    }
    let (before, trailer) = file.split_at(file.len() - TRAILER);
    let (distance, count, records) = (number(&trailer[..4]), number(&trailer[4..8]), number(&trailer[8..12]));
    if &trailer[12..] != MARK {
        return refused(2);
    }
    check_records(records)?;
    if count > MOST_EVENTS {
        return refused(4);
    }
    if distance != 4 * count {
        return refused(5);
    }
    if distance > before.len() as u64 {
        return refused(6);
    }
    let (name, events) = before.split_at(before.len() - distance as usize);
    check_name(name)?;
    check_events(events, records)?;
    Ok(Job { name, events, records })
}

/// Writes a job file to the front of `out` and gives its length: 7, 3, 5, 4, then 8 to 13, then 16.
pub fn write(name: &[u8], records: u64, events: &[u8], out: &mut [u8]) -> Result<u64, Refusal> {
    check_name(name)?;
    check_records(records)?;
    if !events.len().is_multiple_of(4) {
        return refused(5);
    }
    let count = (events.len() / 4) as u64;
    if count > MOST_EVENTS {
        return refused(4);
    }
    check_events(events, records)?;
    let mut file = [name, events].concat();
    file.extend((4 * count as u32).to_le_bytes());
    file.extend((count as u32).to_le_bytes());
    file.extend((records as u32).to_le_bytes());
    file.extend(MARK);
    if out.len() < file.len() {
        return refused(16);
    }
    out[..file.len()].copy_from_slice(&file);
    Ok(file.len() as u64)
}

/// The events of a checked event part.
pub fn decoded(events: &[u8], records: u64) -> Result<Vec<Event>, Refusal> {
    let event_at = |(at, bytes)| decode(bytes, records).map_err(|number| Refusal { number, event: at as u64 });
    events.chunks_exact(4).enumerate().map(event_at).collect()
}

fn number(bytes: &[u8]) -> u64 {
    bytes.iter().rev().fold(0, |sum, &byte| 256 * sum + u64::from(byte))
}

fn check_records(records: u64) -> Result<(), Refusal> {
    match records {
        1..=MOST_RECORDS => Ok(()),
        _ => refused(3),
    }
}

fn check_name(name: &[u8]) -> Result<(), Refusal> {
    if name.len() > LONGEST_NAME || name.iter().any(|byte| !(32..=126).contains(byte)) {
        return refused(7);
    }
    Ok(())
}

/// "An event: kind, a zero byte, record number (2 bytes)"; otherwise the number 8 or 9.
fn decode(bytes: &[u8], records: u64) -> Result<Event, u64> {
    let record = u16::from_le_bytes([bytes[2], bytes[3]]);
    let event = match (bytes[0], bytes[1], record) {
        (1, 0, 0) => Event::Spawn,
        (2, 0, 0) => Event::End,
        (3, 0, 0) => Event::Sync,
        (4, 0, _) => Event::Read(record),
        (5, 0, _) => Event::Write(record),
        _ => return Err(8),
    };
    match event {
        Event::Read(_) | Event::Write(_) if u64::from(record) >= records => Err(9),
        _ => Ok(event),
    }
}

/// Event by event 8, 9, 10 or 11, 12, then 13.
fn check_events(events: &[u8], records: u64) -> Result<(), Refusal> {
    let mut open = Open::root();
    for (at, bytes) in events.chunks_exact(4).enumerate() {
        let taken = decode(bytes, records).and_then(|event| open.take(event));
        taken.map_err(|number| Refusal { number, event: at as u64 })?;
    }
    if open.waiting.len() > 1 {
        return refused(13);
    }
    Ok(())
}

/// The tasks open at some point: for each, how many ended children wait to be joined; and the strands begun.
struct Open {
    waiting: Vec<usize>,
    strands: usize,
}

impl Open {
    fn root() -> Open {
        Open { waiting: vec![0], strands: 1 }
    }

    /// Takes one event, or gives the number 10, 11 or 12.
    fn take(&mut self, event: Event) -> Result<(), u64> {
        let current = self.waiting.len() - 1;
        match event {
            Event::End if current == 0 => return Err(10),
            Event::Spawn if self.waiting.len() == MOST_OPEN => return Err(11),
            _ => {}
        }
        let begins = match event {
            Event::Spawn | Event::End => true,
            Event::Sync => self.waiting[current] > 0,
            Event::Read(_) | Event::Write(_) => false,
        };
        if begins && self.strands == MOST_STRANDS {
            return Err(12);
        }
        self.strands += usize::from(begins);
        match event {
            Event::Spawn => self.waiting.push(0),
            Event::End => {
                self.waiting.pop();
                self.waiting[current - 1] += 1;
            }
            Event::Sync => self.waiting[current] = 0,
            Event::Read(_) | Event::Write(_) => {}
        }
        Ok(())
    }
}
