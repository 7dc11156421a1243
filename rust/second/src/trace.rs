//! Tasks, strands and parallel, over the trace of an accepted job.
//! A position p stands just before event p: access i is at position i, a strand at the position after the event that began it.

/// "An event is one of five things; two carry a record".
#[derive(Clone, Copy, Debug, PartialEq, Eq)]
pub enum Event {
    Spawn,
    End,
    Sync,
    Read(u16),
    Write(u16),
}

impl Event {
    /// The record of an access.
    pub fn record(self) -> Option<u16> {
        match self {
            Event::Read(record) | Event::Write(record) => Some(record),
            Event::Spawn | Event::End | Event::Sync => None,
        }
    }

    pub fn is_write(self) -> bool {
        matches!(self, Event::Write(_))
    }
}

/// A task: its parent, its spawn and its end, and the first event after that end at which the parent syncs or ends.
/// `NEVER` where there is none; the root, task 0, is its own parent and no spawned task.
#[derive(Clone, Copy, Debug)]
struct Task {
    parent: usize,
    spawn: usize,
    end: usize,
    closed: usize,
}

const NEVER: usize = usize::MAX;
const ROOT: usize = 0;

pub struct Trace {
    pub events: Vec<Event>,
    tasks: Vec<Task>,
    /// The task that is current at each position.
    current: Vec<usize>,
    /// The position at which each strand begins.
    begins: Vec<usize>,
    /// The strand that is current at each position.
    strands: Vec<usize>,
}

impl Trace {
    pub fn of(events: Vec<Event>) -> Trace {
        let (mut tasks, current) = spawned(&events);
        let closers = closers(&events, &current, tasks.len());
        for task in tasks.iter_mut().skip(1) {
            let closing = closers[task.parent].iter().find(|&&at| at > task.end);
            task.closed = closing.copied().unwrap_or(NEVER);
        }
        let (begins, strands) = begun(&events, &tasks);
        Trace { events, tasks, current, begins, strands }
    }

    /// "Of accesses i < j, i is parallel to j exactly if some spawned task contains i (between its spawn and its end, tasks under it
    /// included), has ended before j, and its parent has neither synced nor ended between that end and j."
    pub fn parallel(&self, i: usize, j: usize) -> bool {
        self.containing(i).any(|task| task.end < j && task.closed >= j)
    }

    /// The spawned tasks that contain position i: the current one and those over it.
    fn containing(&self, i: usize) -> impl Iterator<Item = Task> + '_ {
        let over = |&task: &usize| Some(self.tasks[task].parent);
        std::iter::successors(Some(self.current[i]), over)
            .take_while(|&task| task != ROOT)
            .map(|task| self.tasks[task])
            .inspect(move |task| debug_assert!(task.spawn < i && i <= task.end))
    }

    /// The strands begun by position p.
    pub fn strands_by(&self, p: usize) -> usize {
        self.strands[p] + 1
    }

    /// The strand of event i.
    pub fn strand(&self, i: usize) -> usize {
        self.strands[i]
    }

    /// "Hebrew: a stands ahead of b if a is before b, or if they are parallel and a began later." For two strands.
    pub fn ahead(&self, a: usize, b: usize) -> bool {
        let (p, q) = (self.begins[a], self.begins[b]);
        if a < b {
            !self.parallel(p, q)
        } else {
            self.parallel(q, p)
        }
    }
}

/// The tasks of the events, and the task current at each position.
fn spawned(events: &[Event]) -> (Vec<Task>, Vec<usize>) {
    let mut tasks = vec![Task { parent: ROOT, spawn: NEVER, end: NEVER, closed: NEVER }];
    let mut current = vec![ROOT];
    for (at, event) in events.iter().enumerate() {
        let now = current[at];
        match event {
            Event::Spawn => {
                current.push(tasks.len());
                tasks.push(Task { parent: now, spawn: at, end: NEVER, closed: NEVER });
            }
            Event::End => {
                tasks[now].end = at;
                current.push(tasks[now].parent);
            }
            _ => current.push(now),
        }
    }
    (tasks, current)
}

/// For each task, the events at which it syncs or ends.
fn closers(events: &[Event], current: &[usize], tasks: usize) -> Vec<Vec<usize>> {
    let mut closers = vec![Vec::new(); tasks];
    for (at, event) in events.iter().enumerate() {
        if matches!(event, Event::Sync | Event::End) {
            closers[current[at]].push(at);
        }
    }
    closers
}

/// "Strand 0 is the root's first. Spawn begins the child's first strand, end begins the parent's next. Sync begins one if it has
/// something to join, and none otherwise." The positions at which strands begin, and the strand at each position.
fn begun(events: &[Event], tasks: &[Task]) -> (Vec<usize>, Vec<usize>) {
    let mut joins = vec![false; events.len()];
    for task in tasks.iter().filter(|task| task.closed != NEVER) {
        joins[task.closed] = true;
    }
    let (mut begins, mut strands) = (vec![0], vec![0]);
    for (at, event) in events.iter().enumerate() {
        let begins_one = match event {
            Event::Spawn | Event::End => true,
            Event::Sync => joins[at],
            Event::Read(_) | Event::Write(_) => false,
        };
        if begins_one {
            begins.push(at + 1);
        }
        strands.push(begins.len() - 1);
    }
    (begins, strands)
}

#[cfg(test)]
mod tests {
    use super::*;

    /// The sentence word by word over the events alone: every task, every event between.
    fn parallel_word_by_word(trace: &Trace, i: usize, j: usize) -> bool {
        (1..trace.tasks.len()).any(|task| {
            let Task { parent, spawn, end, .. } = trace.tasks[task];
            let closes =
                |at: usize| trace.current[at] == parent && matches!(trace.events[at], Event::Sync | Event::End);
            spawn < i && i < end && end < j && !(end + 1..j).any(closes)
        })
    }

    fn trace(text: &str) -> Trace {
        let event = |word: &str| match word {
            "S" => Event::Spawn,
            "E" => Event::End,
            "J" => Event::Sync,
            _ => Event::Read(0),
        };
        Trace::of(text.split_whitespace().map(event).collect())
    }

    const JOBS: [&str; 6] = [
        "S R E R J R",
        "S S R E R E R S R E R J R",
        "S R S R E S R E R E R S J R E R",
        "R S R S R E R J R S R E R E R J R",
        "S S S R E R E R J R E R J R",
        "S R E J R S R E R J J R S S R E E R",
    ];

    #[test]
    fn parallel_is_the_sentence() {
        for job in JOBS {
            let trace = trace(job);
            let accesses: Vec<_> = (0..trace.events.len()).filter(|&at| trace.events[at].record().is_some()).collect();
            for &j in &accesses {
                for &i in accesses.iter().filter(|&&i| i < j) {
                    assert_eq!(trace.parallel(i, j), parallel_word_by_word(&trace, i, j), "{job}: {i} {j}");
                }
            }
        }
    }

    #[test]
    fn strands_compare_as_accesses_in_them_would() {
        for job in JOBS {
            let trace = trace(job);
            let accesses: Vec<_> = (0..trace.events.len()).filter(|&at| trace.events[at].record().is_some()).collect();
            for &j in &accesses {
                for &i in accesses.iter().filter(|&&i| trace.strand(i) < trace.strand(j)) {
                    let (a, b) = (trace.strand(i), trace.strand(j));
                    assert_eq!(trace.ahead(b, a), trace.parallel(i, j), "{job}: {i} {j}");
                    assert_eq!(trace.ahead(a, b), !trace.parallel(i, j), "{job}: {i} {j}");
                }
            }
        }
    }

    #[test]
    fn both_answers_occur() {
        let trace = trace("S R E R J R");
        assert!(trace.parallel(1, 3));
        assert!(!trace.parallel(1, 5));
        assert!(!trace.parallel(3, 5));
    }
}
