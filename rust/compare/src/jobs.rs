//! Generated jobs: deep, flat and mixed, with races and without, small for the most part and now and then near the limits.

use crate::random::Random;
use crate::script::{read, write, Script};

/// A job file in the making, whose parts can be damaged one by one.
#[derive(Clone, Debug)]
pub struct Draft {
    pub name: Vec<u8>,
    pub events: Vec<[u8; 4]>,
    pub records: u32,
    /// Distance and event count, where they are not to follow from the events.
    pub distance: Option<u32>,
    pub count: Option<u32>,
    pub mark: [u8; 4],
}

impl Draft {
    pub fn new(name: Vec<u8>, records: u32, events: Vec<[u8; 4]>) -> Draft {
        Draft { name, events, records, distance: None, count: None, mark: *b"VJT1" }
    }

    pub fn file(&self) -> Vec<u8> {
        let count = self.events.len() as u32;
        let mut file = self.name.clone();
        file.extend(self.events.concat());
        file.extend(self.distance.unwrap_or(4 * count).to_le_bytes());
        file.extend(self.count.unwrap_or(count).to_le_bytes());
        file.extend(self.records.to_le_bytes());
        file.extend(self.mark);
        file
    }
}

/// What a job looks like: about how many events, at most how many tasks open and records, and how often which event.
#[derive(Clone, Copy, Debug)]
pub struct Shape {
    pub events: usize,
    pub open: usize,
    pub records: usize,
    pub spawns: usize,
    pub ends: usize,
    pub syncs: usize,
    pub accesses: usize,
    /// Of 100 accesses.
    pub writes: usize,
    pub racing: Racing,
}

/// Which records may race.
#[derive(Clone, Copy, Debug, PartialEq, Eq)]
pub enum Racing {
    None,
    /// Those with an even number; the others are accessed too, and stay clean.
    EverySecond,
    All,
}

/// A job by chance.
pub fn job(random: &mut Random) -> Draft {
    let shape = shape(random);
    let mut events = events(random, &shape);
    if shape.racing == Racing::None && random.percent(50) {
        change_one_access(random, &mut events, shape.records);
    }
    Draft::new(name(random), shape.records as u32, events)
}

/// A name of 0 to 64 bytes.
pub fn name(random: &mut Random) -> Vec<u8> {
    let length = match random.below(8) {
        0 => 64,
        1 | 2 => 0,
        _ => random.within(1, 16),
    };
    (0..length).map(|_| random.within(32, 126) as u8).collect()
}

fn shape(random: &mut Random) -> Shape {
    let shape = any_shape(random);
    if shape.racing != Racing::EverySecond {
        return shape;
    }
    // Few records for the events, so that many of them race.
    let events = shape.events + 20;
    let records = random.within(3, (events / 6).clamp(5, 4096));
    Shape { events, records, accesses: random.pick(&[8, 8, 30]), writes: random.pick(&[20, 50, 100]), ..shape }
}

fn any_shape(random: &mut Random) -> Shape {
    let events = match random.below(200) {
        0 => random.within(8_000, 16_000),
        1..=5 => random.within(500, 4_000),
        6..=40 => random.within(40, 400),
        41..=100 => random.within(12, 40),
        _ => random.within(0, 12),
    };
    let records = match random.below(10) {
        0 => 4096,
        1 => random.within(1, 4096),
        2..=4 => random.within(1, 40),
        _ => random.within(1, 3),
    };
    let (open, spawns, ends, syncs) =
        random.pick(&[(64, 8, 4, 1), (64, 6, 6, 2), (2, 5, 5, 1), (2, 5, 5, 0), (8, 3, 3, 2)]);
    let accesses = random.pick(&[0, 2, 8, 8, 8, 30]);
    let writes = random.pick(&[0, 1, 5, 20, 50, 100]);
    let racing = match random.below(10) {
        0..=2 => Racing::None,
        3..=6 => Racing::EverySecond,
        _ => Racing::All,
    };
    Shape { events, open, records, spawns, ends, syncs, accesses, writes, racing }
}

/// The events of a job of some shape.
pub fn events(random: &mut Random, shape: &Shape) -> Vec<[u8; 4]> {
    let mut script = Script::default();
    let mut owners = Owners::root(shape);
    let choices = shape.spawns + shape.ends + shape.syncs + shape.accesses;
    while script.events.len() + script.open() <= shape.events {
        let choice = random.below(choices);
        if choice < shape.spawns {
            spawn(&mut script, &mut owners, shape);
        } else if choice < shape.spawns + shape.ends {
            end(&mut script, &mut owners);
        } else if choice < choices - shape.accesses {
            sync(&mut script, &mut owners);
        } else {
            script.access(access(random, &mut owners, shape, script.waits()));
        }
        if !script.may_spawn() && script.open() == 1 && shape.accesses == 0 {
            break;
        }
    }
    while script.may_end() {
        script.end();
    }
    script.events
}

fn spawn(script: &mut Script, owners: &mut Owners, shape: &Shape) {
    if script.open() < shape.open && script.may_spawn() {
        script.spawn();
        owners.spawn();
    }
}

fn end(script: &mut Script, owners: &mut Owners) {
    if script.may_end() {
        script.end();
        owners.end();
    }
}

fn sync(script: &mut Script, owners: &mut Owners) {
    if script.may_sync() {
        script.sync();
        owners.sync();
    }
}

/// An access of a job of some shape: of a record that may race, or of one that must not.
fn access(random: &mut Random, owners: &mut Owners, shape: &Shape, waits: bool) -> [u8; 4] {
    match shape.racing {
        Racing::None => owners.access(random, shape, waits),
        Racing::EverySecond if random.percent(50) => owners.access(random, shape, waits),
        Racing::EverySecond | Racing::All => any_access(random, shape),
    }
}

/// An access of any record, which may race; where only every second record may, of one of those.
pub fn any_access(random: &mut Random, shape: &Shape) -> [u8; 4] {
    let record = match shape.racing {
        Racing::EverySecond => 2 * random.below(shape.records.div_ceil(2)),
        Racing::None | Racing::All => random.below(shape.records),
    } as u16;
    if random.percent(shape.writes) {
        write(record)
    } else {
        read(record)
    }
}

/// Makes one access of a job another one, which may race.
fn change_one_access(random: &mut Random, events: &mut [[u8; 4]], records: usize) {
    let accesses: Vec<usize> = (0..events.len()).filter(|&at| events[at][0] >= 4).collect();
    if !accesses.is_empty() {
        let record = events[random.pick(&accesses)][2..].try_into().map_or(0, u16::from_le_bytes);
        let record = if random.percent(50) { record } else { random.below(records) as u16 };
        events[random.pick(&accesses)] = if random.percent(50) { write(record) } else { read(record) };
    }
}

/// Who may do what to which record so that nothing races: an open task owns records, and those of its ended children wait until
/// they are joined. A task reads what it or a task over it owns, and writes what it owns while it has nothing to join.
struct Owners {
    owned: Vec<Vec<u16>>,
    waiting: Vec<Vec<u16>>,
    /// The first record that nobody has touched, and how far it is from one record to the next.
    fresh: u16,
    step: u16,
}

impl Owners {
    /// The root owns the first record that must not race: record 0, or record 1 where every second one may race.
    fn root(shape: &Shape) -> Owners {
        let (first, step) = if shape.racing == Racing::EverySecond { (1, 2) } else { (0, 1) };
        Owners { owned: vec![vec![first]], waiting: vec![Vec::new()], fresh: first + step, step }
    }

    fn spawn(&mut self) {
        self.owned.push(Vec::new());
        self.waiting.push(Vec::new());
    }

    fn end(&mut self) {
        let left = [self.owned.pop(), self.waiting.pop()];
        let parent = self.waiting.len() - 1;
        self.waiting[parent].extend(left.into_iter().flatten().flatten());
    }

    fn sync(&mut self) {
        let current = self.owned.len() - 1;
        let joined = std::mem::take(&mut self.waiting[current]);
        self.owned[current].extend(joined);
    }

    fn access(&mut self, random: &mut Random, shape: &Shape, waits: bool) -> [u8; 4] {
        let current = self.owned.len() - 1;
        if random.percent(shape.writes) {
            if !waits && !self.owned[current].is_empty() && random.percent(70) {
                return write(random.pick(&self.owned[current]));
            }
            if usize::from(self.fresh) < shape.records {
                self.owned[current].push(self.fresh);
                self.fresh += self.step;
                return write(self.fresh - self.step);
            }
        }
        let task = random.below(current + 1);
        let owner = if self.owned[task].is_empty() { 0 } else { task };
        read(random.pick(&self.owned[owner]))
    }
}

#[cfg(test)]
mod tests {
    use super::*;

    #[test]
    fn generated_jobs_are_accepted() {
        for file in 0..300 {
            let draft = job(&mut Random::of_file(5, file));
            assert!(second::read(&draft.file()).is_ok(), "file {file}");
        }
    }

    #[test]
    fn race_free_jobs_do_not_race() {
        for file in 0..200 {
            let mut random = Random::of_file(6, file);
            let shape = Shape { racing: Racing::None, ..shape(&mut random) };
            let draft = Draft::new(Vec::new(), shape.records as u32, events(&mut random, &shape));
            assert!(second::line(&draft.file()).starts_with(b"clean"), "file {file}");
        }
    }

    /// The records that race in a job file, by the lines that are printed.
    fn raced(file: &[u8]) -> Vec<usize> {
        let lines = String::from_utf8_lossy(&second::lines(file)).into_owned();
        let record = |line: &str| line.strip_prefix("race record ")?.split(' ').next()?.parse().ok();
        lines.lines().filter_map(record).collect()
    }

    #[test]
    fn every_second_record_may_race_and_the_others_do_not() {
        let mut several = 0;
        for file in 0..200 {
            let mut random = Random::of_file(7, file);
            let shape =
                Shape { events: 60, records: 9, accesses: 8, racing: Racing::EverySecond, ..shape(&mut random) };
            let raced = raced(&Draft::new(Vec::new(), 9, events(&mut random, &shape)).file());
            assert!(raced.iter().all(|record| record % 2 == 0), "file {file}: {raced:?}");
            several += usize::from(raced.len() > 1);
        }
        assert!(several > 50, "{several} of 200 files");
    }
}
