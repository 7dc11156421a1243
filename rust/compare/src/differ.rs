//! One file through all the calls of two sides: the answers, and every entry of every lent buffer with canaries in it before.

use crate::blocks::{Block, Buffers, Lists};
use crate::calls::Calls;
use crate::damage::wound;
use crate::jobs::Draft;
use crate::random::Random;
use crate::tally::Tally;

/// Files up to so many events are judged for every k and asked about every pair.
const FEW_EVENTS: u64 = 12;

/// Two sides, and what the first of them answered so far.
pub struct Sides<'a> {
    pub one: &'a dyn Calls,
    pub other: &'a dyn Calls,
    pub tally: Tally,
}

impl Sides<'_> {
    /// What the two sides answer differently about a file, if anything.
    pub fn difference(&mut self, random: &mut Random, file: &[u8]) -> Option<String> {
        self.tally.files += 1;
        let canaries = Buffers::canaries(random);
        let (one, other) = (self.one.read(file), self.other.read(file));
        self.tally.calls += 1;
        answers("reading", one, other).or_else(|| match one {
            [0, _, name, start, length, records] => {
                let (start, end) = (start as usize, (start + length) as usize);
                let draft = Draft::new(file[..name as usize].to_vec(), records as u32, fours(&file[start..end]));
                self.judging(random, file, &canaries, length / 4, records as usize)
                    .or_else(|| self.asking(random, file, length / 4))
                    .or_else(|| self.writing_again(random, file, &draft))
                    .or_else(|| self.writing_damaged(random, draft))
            }
            _ => self.judging(random, file, &canaries, 0, 0).or_else(|| self.asking(random, file, 0)),
        })
    }

    /// Several k, over buffers long enough and not; lists long enough for each of them, and then each list in turn too short for one.
    fn judging(
        &mut self,
        random: &mut Random,
        file: &[u8],
        canaries: &Buffers,
        count: u64,
        records: usize,
    ) -> Option<String> {
        let mut some = vec![0, count, count + 1, random.number()];
        if count <= FEW_EVENTS {
            some.extend(1..count);
        } else {
            some.extend((0..3).map(|_| random.number() % count));
        }
        let long_enough = some.iter().find_map(|&k| {
            let buffers = canaries.changed_at_times(random);
            let lists = Lists::enough(random, records);
            self.judge_both(file, k, &buffers, lists).err()
        });
        long_enough.or_else(|| {
            (0..3).find_map(|list| {
                let buffers = canaries.changed_at_times(random);
                let lists = Lists::short(random, records, list);
                self.judge_records(file, random.pick(&some), &buffers, lists).err()
            })
        })
    }

    /// Both calls over the same k events, with lists that are long enough: then the other side's two answers belong together.
    fn judge_both(&mut self, file: &[u8], k: u64, buffers: &Buffers, lists: Lists) -> Result<(), String> {
        let race = self.judge(file, k, buffers)?;
        let (answer, lists) = self.judge_records(file, k, buffers, lists)?;
        let pairs: Vec<[u64; 3]> = lists.raced(answer[2]).collect();
        if answer[..2] == race[..2] && race[2..6] == smallest_second(&pairs) {
            return Ok(());
        }
        Err(format!("judging {k} events: {race:?}, but every record's race: {answer:?} with {pairs:?}"))
    }

    /// The other side's answer to judging, if the first one's is the same.
    fn judge(&mut self, file: &[u8], k: u64, buffers: &Buffers) -> Result<[u64; 9], String> {
        let (mut mine, mut others) = (buffers.clone(), buffers.clone());
        let judged = |side: &dyn Calls, lent: &mut Buffers| {
            side.judge(file, k, lent.labels.lent(), lent.links.lent(), lent.places.lent())
        };
        let (one, other) = (judged(self.one, &mut mine), judged(self.other, &mut others));
        self.tally.judged(file, &one);
        let difference = answers("the answer", one, other).or_else(|| mine.difference(&others));
        difference.map_or(Ok(other), |difference| Err(format!("judging {k} events, {difference}")))
    }

    /// The other side's answer to judging every record, and the lists, if the first one's are the same.
    fn judge_records(
        &mut self,
        file: &[u8],
        k: u64,
        buffers: &Buffers,
        lists: Lists,
    ) -> Result<([u64; 6], Lists), String> {
        let (mut mine, mut others) = ((buffers.clone(), lists.clone()), (buffers.clone(), lists));
        let judged = |side: &dyn Calls, (lent, lists): &mut (Buffers, Lists)| {
            side.judge_records(file, k, lent.labels.lent(), lent.links.lent(), lent.places.lent(), lists.lent())
        };
        let (one, other) = (judged(self.one, &mut mine), judged(self.other, &mut others));
        self.tally.judged_records(&one, &mine.1);
        let difference = answers("the answer", one, other)
            .or_else(|| mine.0.difference(&others.0))
            .or_else(|| mine.1.difference(&others.1));
        match difference {
            None => Ok((other, others.1)),
            Some(difference) => Err(format!("judging every record over {k} events, {difference}")),
        }
    }

    /// All pairs of a small file, some of another; event numbers past the end too.
    fn asking(&mut self, random: &mut Random, file: &[u8], count: u64) -> Option<String> {
        if count <= FEW_EVENTS {
            let pairs = (0..=count).flat_map(|i| (0..=count).map(move |j| (i, j)));
            return pairs.into_iter().find_map(|(i, j)| self.ask(file, i, j));
        }
        let accesses: Vec<u64> = (0..count).filter(|&at| is_access(file, count, at)).collect();
        let some = if count < 1000 { 20 } else { 6 };
        (0..some).find_map(|_| {
            let mut number = || match random.below(12) {
                0 => random.number(),
                1 => count,
                2 => random.number() % count,
                _ if accesses.is_empty() => 0,
                _ => random.pick(&accesses),
            };
            let (i, j) = (number(), number());
            self.ask(file, i, j)
        })
    }

    fn ask(&mut self, file: &[u8], i: u64, j: u64) -> Option<String> {
        let (one, other) = (self.one.question(file, i, j), self.other.question(file, i, j));
        self.tally.asked(&one);
        answers(&format!("the question about {i} and {j}"), one, other)
    }

    /// The parts of an accepted file make that file again, in an output buffer long enough and not.
    fn writing_again(&mut self, random: &mut Random, file: &[u8], draft: &Draft) -> Option<String> {
        let short = random.below(file.len());
        for length in [file.len(), file.len() + random.within(1, 40), file.len() - 1, short] {
            let events = draft.events.concat();
            let difference = self.write(random, &draft.name, u64::from(draft.records), &events, length);
            if difference.is_some() {
                return difference;
            }
        }
        let mut again = vec![0; file.len()];
        self.other.write(&draft.name, u64::from(draft.records), &draft.events.concat(), &mut again);
        (again != file).then(|| "writing what was read makes another file".to_string())
    }

    /// Parts that make no accepted file, for the most part.
    fn writing_damaged(&mut self, random: &mut Random, mut draft: Draft) -> Option<String> {
        for _ in 0..random.within(1, 2) {
            wound(random, &mut draft);
        }
        let mut events = draft.events.concat();
        match random.below(8) {
            0 => events.push(2),
            1 => drop(events.pop()),
            _ => {}
        }
        let records = if random.percent(5) { random.number() } else { u64::from(draft.records) };
        let length = (draft.name.len() + events.len() + 16).saturating_sub(random.below(3));
        self.write(random, &draft.name, records, &events, length)
    }

    fn write(
        &mut self,
        random: &mut Random,
        name: &[u8],
        records: u64,
        events: &[u8],
        length: usize,
    ) -> Option<String> {
        let canary = random.number() as u8;
        let mut mine = Block::of(length, || canary);
        let mut others = mine.clone();
        let one = self.one.write(name, records, events, mine.lent());
        let other = self.other.write(name, records, events, others.lent());
        self.tally.wrote(&one);
        let difference = answers("the answer", one, other).or_else(|| mine.difference(&others, "output"))?;
        let text = vjt::show(&Draft::new(name.to_vec(), records as u32, fours(events)).file());
        let bytes = events.len();
        let text = text.trim_end();
        Some(format!("writing {bytes} event bytes, records {records}, to {length} bytes: {text}, {difference}"))
    }
}

fn is_access(file: &[u8], count: u64, at: u64) -> bool {
    let events = file.len() - 16 - 4 * count as usize;
    matches!(file[events + 4 * at as usize], 4 | 5)
}

fn fours(bytes: &[u8]) -> Vec<[u8; 4]> {
    bytes.chunks_exact(4).map(|four| [four[0], four[1], four[2], four[3]]).collect()
}

/// Both answers, if they differ.
fn answers<const N: usize>(call: &str, one: [u64; N], other: [u64; N]) -> Option<String> {
    (one != other).then(|| format!("{call}: {one:?} and {other:?}"))
}

/// "The one-race call stays and gives the pair with the smallest second event": raced, first, second and record of that one of the
/// pairs, which are record, first and second; or zeros if there is none.
fn smallest_second(pairs: &[[u64; 3]]) -> [u64; 4] {
    let smallest = pairs.iter().min_by_key(|[_, _, second]| second);
    smallest.map_or([0; 4], |&[record, first, second]| [1, first, second, record])
}
