//! The sides that are timed: three Rust programs and, with the feature `rattle`, the library, behind the calls of the C interface.

use crate::check::{check, Accepted};
use crate::kind::{Marked, Plain, Tuned};
use crate::order::grow;
use crate::{rival, tuned};
use compare::calls::{judged, refused, Calls, Second};
use second::{Judged, Refusal, LABELS, LINKS, PLACES};

type Check = fn(&[u8]) -> Result<Accepted, Refusal>;
type Judge = fn(&[u8], u64, &mut [u64], &mut [u16], &mut [u32]) -> Result<Judged, Refusal>;

/// A Rust program, with the second program's writing, question and judging of every record.
pub struct Program {
    check: Check,
    judge: Judge,
}

pub static PLAIN: Program = Program { check, judge: rival::judge::<false> };
pub static MARKED: Program = Program { check, judge: rival::judge::<true> };
pub static TUNED: Program = Program { check: tuned::check, judge: tuned::judge };

impl Calls for Program {
    fn read(&self, file: &[u8]) -> [u64; 6] {
        let numbers = |Accepted { start, count, records }: Accepted| {
            [0, 0, start, start, 4 * count, records].map(|number| number as u64)
        };
        (self.check)(file).map_or_else(refused, numbers)
    }

    fn write(&self, name: &[u8], records: u64, events: &[u8], out: &mut [u8]) -> [u64; 3] {
        Second.write(name, records, events, out)
    }

    fn question(&self, file: &[u8], i: u64, j: u64) -> [u64; 3] {
        Second.question(file, i, j)
    }

    fn judge(&self, file: &[u8], k: u64, labels: &mut [u64], links: &mut [u16], places: &mut [u32]) -> [u64; 9] {
        (self.judge)(file, k, labels, links, places).map_or_else(refused, judged)
    }

    fn judge_records(
        &self,
        file: &[u8],
        k: u64,
        labels: &mut [u64],
        links: &mut [u16],
        places: &mut [u32],
        lists: [&mut [u32]; 3],
    ) -> [u64; 6] {
        Second.judge_records(file, k, labels, links, places, lists)
    }
}

/// A side that grows one order alone, by the rule of a factor, and gives how many labels that set or changed.
pub type Grow = fn(&mut [u64], &mut [u16], u16) -> u64;

/// The library, if it is there.
#[cfg(feature = "rattle")]
fn library() -> Option<(&'static dyn Calls, Grow)> {
    Some((&compare::ffi::Library, crate::growing::grow))
}

#[cfg(not(feature = "rattle"))]
fn library() -> Option<(&'static dyn Calls, Grow)> {
    None
}

/// The sides that judge: plain, marked, tuned and, if it is there, the library.
pub fn judging() -> Vec<&'static dyn Calls> {
    let programs: [&dyn Calls; 3] = [&PLAIN, &MARKED, &TUNED];
    programs.into_iter().chain(library().map(|(library, _)| library)).collect()
}

/// The sides that check a file; plain and marked have one check.
pub fn checking() -> Vec<&'static dyn Calls> {
    judging().split_off(1)
}

/// The sides that grow an order.
pub fn growing() -> Vec<Grow> {
    let orders: [Grow; 3] = [grow::<Plain>, grow::<Marked>, grow::<Tuned>];
    orders.into_iter().chain(library().map(|(_, grow)| grow)).collect()
}

/// The work buffers of one side.
#[derive(PartialEq)]
pub struct Buffers {
    pub labels: Vec<u64>,
    pub links: Vec<u16>,
    pub places: Vec<u32>,
}

impl Buffers {
    /// Buffers of the rules' lengths, with former contents that judging never stores.
    pub fn used() -> Buffers {
        Buffers {
            labels: vec![0xABAB_ABAB_ABAB_ABAB; LABELS],
            links: vec![0xABAB; LINKS],
            places: vec![0xABAB_ABAB; PLACES],
        }
    }

    /// What a side answers about all events of a file.
    pub fn judge(&mut self, side: &dyn Calls, file: &[u8]) -> [u64; 9] {
        side.judge(file, events_of(file), &mut self.labels, &mut self.links, &mut self.places)
    }
}

/// How many events a file says that it has.
pub fn events_of(file: &[u8]) -> u64 {
    file.last_chunk::<12>().map_or(0, |tail| u64::from(u32::from_le_bytes([tail[0], tail[1], tail[2], tail[3]])))
}
