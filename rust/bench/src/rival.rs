//! The Rust program of equal method, as C-24 has it: ordinary slices and vectors, one pass to check the file, one to judge it, in which
//! each kind of event has a function of its own. Both decode alike. The mark of the orders makes two programs of it, plain and marked.

use crate::check::check;
use crate::event::{decode, Event};
use crate::kind::Ordinary;
use crate::state::{race, State, NO_STRAND, READS, WRITES};
use second::{Judged, Race, Refusal};

/// Judges the first k events of a file, or fewer if a race is met. Plain is without the mark.
pub fn judge<const MARKED: bool>(
    file: &[u8],
    k: u64,
    labels: &mut [u64],
    links: &mut [u16],
    places: &mut [u32],
) -> Result<Judged, Refusal> {
    let accepted = check(file)?;
    let mut state = State::<Ordinary<MARKED>>::root(accepted, k, labels, links, places)?;
    let race = state.run(accepted.events(file, k as usize)).err();
    Ok(state.judged(race))
}

impl<const MARKED: bool> State<'_, Ordinary<MARKED>> {
    /// Takes the events, which were checked, up to the first race.
    fn run(&mut self, events: &[[u8; 4]]) -> Result<(), Race> {
        for (at, &bytes) in events.iter().enumerate() {
            match decode(bytes).expect("checked") {
                Event::Spawn => self.spawn(),
                Event::End => self.end(),
                Event::Sync => self.sync(),
                Event::Read(record) => self.read(at, record)?,
                Event::Write(record) => self.write(at, record)?,
            }
        }
        Ok(())
    }

    fn spawn(&mut self) {
        let behind = self.last[self.current];
        self.current += 1;
        self.last[self.current] = self.strands;
        self.joining[self.current] = NO_STRAND;
        self.begin(behind);
    }

    fn end(&mut self) {
        let child = self.current;
        self.current -= 1;
        let unjoined = if self.joining[child] == NO_STRAND { self.last[child] } else { self.joining[child] };
        let joining = self.joining[self.current];
        self.joining[self.current] = if joining == NO_STRAND { unjoined } else { joining };
        let behind = self.last[self.current];
        self.last[self.current] = self.strands;
        self.begin(behind);
    }

    fn sync(&mut self) {
        let behind = self.joining[self.current];
        if behind != NO_STRAND {
            self.last[self.current] = self.strands;
            self.joining[self.current] = NO_STRAND;
            self.begin(behind);
        }
    }

    fn read(&mut self, at: usize, record: usize) -> Result<(), Race> {
        if self.parallel(self.places[WRITES + 1][record]) {
            return Err(race(self.places[WRITES][record], at, record, [true, false]));
        }
        if !self.parallel(self.places[READS + 1][record]) {
            self.store(READS, record, at);
        }
        Ok(())
    }

    fn write(&mut self, at: usize, record: usize) -> Result<(), Race> {
        let wrote = self.parallel(self.places[WRITES + 1][record]);
        let standing = self.parallel(self.places[READS + 1][record]);
        if wrote | standing {
            let first = if wrote { self.places[WRITES][record] } else { self.places[READS][record] };
            return Err(race(first, at, record, [wrote, true]));
        }
        self.store(WRITES, record, at);
        Ok(())
    }

    fn store(&mut self, part: usize, record: usize, at: usize) {
        self.places[part][record] = at as u32;
        self.places[part + 1][record] = (self.strands - 1) as u32;
    }
}
