//! The events of a job in the making: only events that the rules allow can be added, and room for the ends is kept.

const MOST_OPEN: usize = 64;
const MOST_STRANDS: usize = 4096;

pub const SPAWN: [u8; 4] = [1, 0, 0, 0];
pub const END: [u8; 4] = [2, 0, 0, 0];
pub const SYNC: [u8; 4] = [3, 0, 0, 0];

pub fn read(record: u16) -> [u8; 4] {
    access(4, record)
}

pub fn write(record: u16) -> [u8; 4] {
    access(5, record)
}

fn access(kind: u8, record: u16) -> [u8; 4] {
    let [low, high] = record.to_le_bytes();
    [kind, 0, low, high]
}

pub struct Script {
    pub events: Vec<[u8; 4]>,
    /// For each open task, whether a child that has ended waits to be joined.
    waiting: Vec<bool>,
    strands: usize,
}

impl Default for Script {
    fn default() -> Script {
        Script { events: Vec::new(), waiting: vec![false], strands: 1 }
    }
}

impl Script {
    /// How many tasks are open, root counted.
    pub fn open(&self) -> usize {
        self.waiting.len()
    }

    /// Whether the current task has something to join.
    pub fn waits(&self) -> bool {
        self.waiting[self.open() - 1]
    }

    /// Strands that can still begin once every open task has its end.
    fn room(&self) -> usize {
        MOST_STRANDS - self.strands - (self.open() - 1)
    }

    pub fn may_spawn(&self) -> bool {
        self.open() < MOST_OPEN && self.room() >= 2
    }

    pub fn may_end(&self) -> bool {
        self.open() > 1
    }

    pub fn may_sync(&self) -> bool {
        !self.waits() || self.room() >= 1
    }

    pub fn spawn(&mut self) {
        self.events.push(SPAWN);
        self.waiting.push(false);
        self.strands += 1;
    }

    pub fn end(&mut self) {
        self.events.push(END);
        self.waiting.pop();
        let parent = self.open() - 1;
        self.waiting[parent] = true;
        self.strands += 1;
    }

    pub fn sync(&mut self) {
        self.events.push(SYNC);
        self.strands += usize::from(self.waits());
        let current = self.open() - 1;
        self.waiting[current] = false;
    }

    pub fn access(&mut self, event: [u8; 4]) {
        self.events.push(event);
    }
}
