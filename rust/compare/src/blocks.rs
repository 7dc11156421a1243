//! The memory that one side is lent: blocks with canaries in them, and around them canaries that no call may touch.

use crate::random::Random;
use second::{LABELS, LINKS, PLACES};
use std::fmt::Display;
use std::iter::repeat_with;

/// How many canaries stand ahead of a block, and how many behind it.
const AROUND: usize = 8;

/// A block, with what stands around it.
#[derive(Clone)]
pub struct Block<T>(Vec<T>);

impl<T: Copy + Display + PartialEq> Block<T> {
    pub fn of(length: usize, canary: impl FnMut() -> T) -> Block<T> {
        Block(repeat_with(canary).take(length + 2 * AROUND).collect())
    }

    /// What is lent.
    pub fn lent(&mut self) -> &mut [T] {
        let end = self.0.len() - AROUND;
        &mut self.0[AROUND..end]
    }

    /// What was lent, after a call.
    pub fn left(&self) -> &[T] {
        &self.0[AROUND..self.0.len() - AROUND]
    }

    fn resize(&mut self, length: usize, canary: T) {
        self.0.resize(length + 2 * AROUND, canary);
    }

    /// The first entry in which two blocks of one length differ; those around them count from their first entry too.
    pub fn difference(&self, other: &Block<T>, what: &str) -> Option<String> {
        let at = self.0.iter().zip(&other.0).position(|(one, other)| one != other)?;
        Some(format!("{what}: entry {} is {} and {}", at as isize - AROUND as isize, self.0[at], other.0[at]))
    }
}

/// The work buffers.
#[derive(Clone)]
pub struct Buffers {
    pub labels: Block<u64>,
    pub links: Block<u16>,
    pub places: Block<u32>,
}

impl Buffers {
    /// Buffers of the rules' lengths, with contents that show where something is stored.
    pub fn canaries(random: &mut Random) -> Buffers {
        let kind = random.below(4);
        let mut content = || match kind {
            0 => 0,
            1 => u64::MAX,
            _ => random.number(),
        };
        Buffers {
            labels: Block::of(LABELS, &mut content),
            links: Block::of(LINKS, || content() as u16),
            places: Block::of(PLACES, || content() as u32),
        }
    }

    /// The same, or now and then with one of the lengths changed.
    pub fn changed_at_times(&self, random: &mut Random) -> Buffers {
        let mut buffers = self.clone();
        if random.percent(10) {
            buffers.change_a_length(random);
        }
        buffers
    }

    /// Makes one of the buffers too short or longer than need be.
    fn change_a_length(&mut self, random: &mut Random) {
        let (short, long) = (random.pick(&[0, 1, 4096]), random.within(1, 9));
        let change = |length: usize, cut: bool| if cut { length.saturating_sub(short.max(1)) } else { length + long };
        let cut = random.percent(50);
        match random.below(3) {
            0 => self.labels.resize(change(LABELS, cut), 77),
            1 => self.links.resize(change(LINKS, cut), 77),
            _ => self.places.resize(change(PLACES, cut), 77),
        }
    }

    pub fn difference(&self, other: &Buffers) -> Option<String> {
        let labels = self.labels.difference(&other.labels, "labels");
        labels
            .or_else(|| self.links.difference(&other.links, "links"))
            .or_else(|| self.places.difference(&other.places, "places"))
    }
}

/// The lists of the raced records: record, first, second.
#[derive(Clone)]
pub struct Lists(pub [Block<u32>; 3]);

impl Lists {
    /// Lists of some lengths, with canaries.
    pub fn of(random: &mut Random, lengths: [usize; 3]) -> Lists {
        Lists(lengths.map(|length| Block::of(length, || random.number() as u32)))
    }

    /// Lists long enough for so many records: of just that length, or longer.
    pub fn enough(random: &mut Random, records: usize) -> Lists {
        let exact = random.percent(50);
        let lengths = [0; 3].map(|_| if exact { records } else { records + random.within(1, 9) });
        Lists::of(random, lengths)
    }

    /// Lists of which one lacks an entry for so many records, and the others do or do not have more than need be.
    pub fn short(random: &mut Random, records: usize, list: usize) -> Lists {
        let mut lengths = [0; 3].map(|_| records + random.pick(&[0, 0, 1, 9]));
        lengths[list] = records.saturating_sub(1);
        Lists::of(random, lengths)
    }

    pub fn lent(&mut self) -> [&mut [u32]; 3] {
        self.0.each_mut().map(Block::lent)
    }

    /// Record, first and second of the first `raced` entries.
    pub fn raced(&self, raced: u64) -> impl Iterator<Item = [u64; 3]> + '_ {
        let [records, firsts, seconds] = self.0.each_ref().map(Block::left);
        let entry = |((&record, &first), &second): ((&u32, &u32), &u32)| [record, first, second].map(u64::from);
        records.iter().zip(firsts).zip(seconds).take(raced as usize).map(entry)
    }

    pub fn difference(&self, other: &Lists) -> Option<String> {
        let mut lists = self.0.iter().zip(&other.0).zip(["records", "firsts", "seconds"]);
        lists.find_map(|((one, other), what)| one.difference(other, what))
    }
}

#[cfg(test)]
mod tests {
    use super::*;

    #[test]
    fn what_is_around_a_block_counts() {
        let before = Block::of(3, || 5);
        for at in 0..3 + 2 * AROUND {
            let mut after = before.clone();
            after.0[at] = 6;
            let told = format!("it: entry {} is 5 and 6", at as isize - AROUND as isize);
            assert_eq!(before.difference(&after, "it"), Some(told));
        }
        assert_eq!(before.difference(&before.clone(), "it"), None);
    }

    #[test]
    fn lists_have_the_lengths_that_are_asked_for() {
        let mut random = Random::new(1);
        let lengths = |lists: &Lists| lists.0.each_ref().map(|list| list.left().len());
        let enough: Vec<[usize; 3]> = (0..100).map(|_| lengths(&Lists::enough(&mut random, 7))).collect();
        assert!(enough.contains(&[7; 3]) && enough.iter().any(|lengths| lengths.iter().all(|&length| length > 7)));
        assert!(enough.iter().flatten().all(|&length| length >= 7));
        for list in 0..3 {
            let short = lengths(&Lists::short(&mut random, 7, list));
            assert!((0..3).all(|at| (short[at] == 6) == (at == list) && short[at] >= 6), "{short:?}");
        }
    }
}
