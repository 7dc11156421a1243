//! The tuned Rust program: how far one can go beyond the equal method. What it does that plain and marked do not: its buffers are arrays
//! of known length; it decodes no event but works on numbers of 32 bits, which judging does not check again; spawn, end and sync take
//! one path without branches, which rests on the order in which strands begin, and so do read and write; what a read leaves is
//! selected; and its orders are respaced from both ends at once.

use crate::check::{check_by, refused, Accepted, MOST_OPEN};
use crate::kind::Tuned;
use crate::order::STRANDS;
use crate::state::{race, State, NO_STRAND, READS, WRITES};
use second::{Judged, Race, Refusal};
use std::hint::select_unpredictable;

// The events that begin strands have nothing but their kind.
const SPAWN: u32 = 1;
const END: u32 = 2;
const SYNC: u32 = 3;

/// The record of an access.
fn record(event: u32) -> usize {
    (event >> 16) as usize
}

/// The place of the task that is current after a spawn, end or sync, the root's being 0; over every place if the root would end.
fn task_after(event: u32, current: usize) -> usize {
    current.wrapping_add(usize::from(event == SPAWN)).wrapping_sub(usize::from(event == END))
}

/// Checks a whole file.
pub fn check(file: &[u8]) -> Result<Accepted, Refusal> {
    check_by(file, check_events)
}

fn check_events(events: &[[u8; 4]], records: usize) -> Result<(), Refusal> {
    let mut waiting = [false; MOST_OPEN];
    let (mut current, mut strands) = (0, 1);
    for (at, &bytes) in events.iter().enumerate() {
        let refused = |number| Err(Refusal { number, event: at as u64 });
        let event = u32::from_le_bytes(bytes);
        // Kind 4 or 5, and the zero byte.
        if event & 0xFFFE == 4 {
            if record(event) >= records {
                return refused(9);
            }
            continue;
        }
        if !(SPAWN..=SYNC).contains(&event) {
            return refused(8);
        }
        let task = task_after(event, current);
        if task >= MOST_OPEN {
            return refused(if event == END { 10 } else { 11 });
        }
        strands += usize::from((event != SYNC) | waiting[current]);
        if strands > STRANDS {
            return refused(12);
        }
        waiting[task] = event == END;
        current = task;
    }
    if current > 0 {
        return refused(13);
    }
    Ok(())
}

/// Judges the first k events of a file, or fewer if a race is met.
pub fn judge(
    file: &[u8],
    k: u64,
    labels: &mut [u64],
    links: &mut [u16],
    places: &mut [u32],
) -> Result<Judged, Refusal> {
    let accepted = check(file)?;
    let mut state = State::root(accepted, k, labels, links, places)?;
    let race = state.take(accepted.events(file, k as usize));
    Ok(state.judged(race))
}

// Branches that could not be foreseen are left out: which of spawn, end and sync an event is, whether it reads or writes, whether a
// place is empty, and whether a read comes to stand.
impl State<'_, Tuned> {
    /// Takes the events, which were checked, up to the first race, which is given.
    fn take(&mut self, events: &[[u8; 4]]) -> Option<Race> {
        for (at, &bytes) in events.iter().enumerate() {
            let event = u32::from_le_bytes(bytes);
            if event <= SYNC {
                self.advance(event);
                continue;
            }
            let race = self.access(at, record(event), event & 1 == 1);
            if race.is_some() {
                return race;
            }
        }
        None
    }

    /// Takes a spawn, end or sync. Its strand is the last of the task that is current after it. In the Hebrew order it goes behind what
    /// a sync joins; else behind the last strand of the parent.
    fn advance(&mut self, event: u32) {
        let (before, task) = (self.current, task_after(event, self.current));
        let cells = if event == SYNC { &self.joining } else { &self.last };
        let behind = cells[before.min(task)];
        if behind == NO_STRAND {
            return;
        }
        // What the parent has still to join began before what the child has, and that before the child's last.
        let unjoined = self.joining[task].min(self.joining[before]).min(self.last[before]);
        self.joining[task] = if event == END { unjoined } else { NO_STRAND };
        self.last[task] = self.strands;
        self.current = task;
        self.begin(behind);
    }

    /// Takes an access: gives its race, or stores it in its place.
    fn access(&mut self, at: usize, record: usize, write: bool) -> Option<Race> {
        let wrote = self.parallel(self.places[WRITES + 1][record]);
        let standing = self.parallel(self.places[READS + 1][record]);
        if wrote | (write & standing) {
            let first = self.places[if wrote { WRITES } else { READS }][record];
            return Some(race(first, at, record, [wrote, write]));
        }
        let part = if write { WRITES } else { READS };
        let (event, strand) = (self.places[part][record], self.places[part + 1][record]);
        self.places[part][record] = select_unpredictable(standing, event, at as u32);
        self.places[part + 1][record] = select_unpredictable(standing, strand, (self.strands - 1) as u32);
        None
    }
}
