//! The state of judging: two orders, cells for the open tasks, and two places for each record.

use crate::check::{refused, Accepted};
use crate::kind::Kind;
use crate::order::Order;
use second::{Judged, Race, Refusal, LABELS, LINKS, PLACES};

pub const RECORDS: usize = 4096;
const NO_PLACE: u32 = u32::MAX;
/// Which part of the places has the events of last writes, and which those of standing reads. The part behind each has their strands.
pub const WRITES: usize = 0;
pub const READS: usize = 2;
pub const NO_STRAND: usize = usize::MAX;

/// For each open task: the strand that is last of those before the current point, which is the task's own current one; and the
/// strand that is last of those still to be joined, or none.
pub struct State<'a, K: Kind> {
    pub english: Order<'a, K>,
    pub hebrew: Order<'a, K>,
    pub places: K::Places<'a>,
    pub strands: usize,
    pub last: K::Cells,
    pub joining: K::Cells,
    pub current: usize,
}

impl<'a, K: Kind> State<'a, K> {
    /// The state before any event of a file, k of which are to be judged.
    pub fn root(
        accepted: Accepted,
        k: u64,
        labels: &'a mut [u64],
        links: &'a mut [u16],
        places: &'a mut [u32],
    ) -> Result<State<'a, K>, Refusal> {
        if k > accepted.count as u64 {
            return refused(15);
        }
        if labels.len() < LABELS || links.len() < LINKS || places.len() < PLACES {
            return refused(14);
        }
        let (english, labels, links) = Order::root(labels, links);
        let (hebrew, ..) = Order::root(labels, links);
        for part in places[..PLACES].chunks_mut(RECORDS) {
            part[..accepted.records].fill(NO_PLACE);
        }
        Ok(State {
            english,
            hebrew,
            places: K::places(places),
            strands: 1,
            last: K::cells(0),
            joining: K::cells(NO_STRAND),
            current: 0,
        })
    }

    /// Begins a strand, in the Hebrew order right behind strand `behind`.
    #[inline(always)]
    pub fn begin(&mut self, behind: usize) {
        self.english.append(self.strands);
        self.hebrew.insert(behind, self.strands);
        self.strands += 1;
    }

    /// Whether the strand of a place is parallel to the current one. That is not parallel to itself, and stands in for none.
    pub fn parallel(&self, strand: u32) -> bool {
        let current = self.strands - 1;
        let strand = if strand == NO_PLACE { current } else { strand as usize };
        self.hebrew.labels[strand] > self.hebrew.labels[current]
    }

    /// What comes back.
    pub fn judged(&self, race: Option<Race>) -> Judged {
        Judged { race, strands: self.strands as u64, english: self.english.count, hebrew: self.hebrew.count }
    }
}

/// The race of two accesses to a record: their events, and which of them write.
pub fn race(first: u32, second: usize, record: usize, writes: [bool; 2]) -> Race {
    Race { first: u64::from(first), second: second as u64, record: record as u64, writes }
}
