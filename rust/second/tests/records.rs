//! Every record's race: small jobs with their lists, frozen places, and each refusal.

use second::{judge, judge_records, lines, read, JudgedRecords, Race, Refusal, LABELS, LINKS, PLACES};

const NO_PLACE: u32 = u32::MAX;

/// The contents of every entry before a call; no call here stores it.
const BEFORE: u8 = 77;

fn job(text: &str) -> Vec<u8> {
    vjt::pack(text).unwrap_or_else(|wrong| panic!("{text}: {wrong}"))
}

fn events(file: &[u8]) -> u64 {
    (read(file).expect("accepted").events.len() / 4) as u64
}

/// What one call is lent and what it leaves.
#[derive(Clone, Debug, PartialEq, Eq)]
struct Lent {
    labels: Vec<u64>,
    links: Vec<u16>,
    places: Vec<u32>,
    lists: [Vec<u32>; 3],
}

impl Lent {
    /// Work buffers of the rules' lengths, and lists of these.
    fn with_lists(lengths: [usize; 3]) -> Lent {
        Lent {
            labels: vec![BEFORE.into(); LABELS],
            links: vec![BEFORE.into(); LINKS],
            places: vec![BEFORE.into(); PLACES],
            lists: lengths.map(|length| vec![BEFORE.into(); length]),
        }
    }

    fn judge(&mut self, file: &[u8], k: u64) -> Result<JudgedRecords, Refusal> {
        let lists = self.lists.each_mut().map(|list| list.as_mut_slice());
        judge_records(file, k, &mut self.labels, &mut self.links, &mut self.places, lists)
    }

    /// The places of a record: last write, its strand, standing read, its strand.
    fn places_of(&self, record: usize) -> [u32; 4] {
        [0, 4096, 8192, 12288].map(|from| self.places[from + record])
    }
}

/// What judging k events of a job gives and leaves, with lists of 9 entries.
fn judged(text: &str, k: u64) -> (JudgedRecords, Lent) {
    let mut lent = Lent::with_lists([9; 3]);
    let answer = lent.judge(&job(text), k).expect(text);
    (answer, lent)
}

/// The raced records of a whole job, each with its first and its second event, as the answer has them; the lists have the same.
fn raced(text: &str) -> Vec<[u64; 3]> {
    let (answer, lent) = judged(text, events(&job(text)));
    let pairs: Vec<[u64; 3]> = answer.races.iter().map(|race| [race.record, race.first, race.second]).collect();
    for (at, list) in lent.lists.iter().enumerate() {
        let listed: Vec<u32> = pairs.iter().map(|pair| pair[at] as u32).collect();
        assert_eq!(list[..listed.len()], listed, "{text}, list {at}");
        assert!(list[listed.len()..].iter().all(|&entry| entry == BEFORE.into()), "{text}, list {at}");
    }
    pairs
}

/// The one race of a whole job.
fn one_race(text: &str) -> Option<Race> {
    let file = job(text);
    let judged = judge(&file, events(&file), &mut [0; LABELS], &mut [0; LINKS], &mut [0; PLACES]);
    judged.expect(text).race
}

#[test]
fn each_record_has_its_own_race() {
    assert_eq!(raced("S W1 W0 E W1 W0"), [[0, 2, 5], [1, 1, 4]]);
    // the middle one is read twice, in parallel
    assert_eq!(raced("S W2 R1 W0 E R1 W2 R0"), [[0, 3, 7], [2, 1, 6]]);
    // a race later in the job, after a join
    assert_eq!(raced("S W3 E W3 J W3 S R1 E W1"), [[1, 7, 9], [3, 1, 3]]);
    assert_eq!(raced("S W0 E J W0"), Vec::<[u64; 3]>::new());
    assert_eq!(raced(""), Vec::<[u64; 3]>::new());
}

#[test]
fn the_starred_jobs_have_one_record() {
    let jobs: [(&str, &[[u64; 3]]); 10] = [
        ("", &[]),
        ("W0 R0", &[]),
        ("S W0 E W0", &[[0, 1, 3]]),
        ("S W0 E J W0", &[]),
        ("S R0 E R0 W0", &[[0, 1, 4]]),
        ("S R0 W0 E W0", &[[0, 2, 4]]),
        ("S W0 E S W0 E", &[[0, 1, 4]]),
        ("S W0 E J S W0 E", &[]),
        ("S S W0 E J E W0", &[[0, 2, 6]]),
        ("S W0 E S J W0 E", &[[0, 1, 5]]),
    ];
    for (text, pairs) in jobs {
        assert_eq!(raced(text), pairs, "{text}");
    }
}

#[test]
fn the_first_is_taken_within_the_record() {
    // the last write of record 0 is before event 6, the standing read is not; record 1 is written between
    assert_eq!(raced("W0 S R0 W1 E R0 W0 W1"), [[0, 2, 6], [1, 3, 7]]);
    // the last write goes ahead of the standing read
    assert_eq!(raced("S R0 W0 R1 E W1 W0"), [[0, 2, 6], [1, 3, 5]]);
}

#[test]
fn the_one_race_has_the_smallest_second() {
    for text in ["S W1 W0 E W1 W0", "S W2 R1 W0 E R1 W2 R0", "S W3 E W3 J W3 S R1 E W1", "W0 S R0 W1 E R0 W0 W1", "W0"]
    {
        let least = raced(text).into_iter().min_by_key(|pair| pair[2]);
        assert_eq!(one_race(text).map(|race| [race.record, race.first, race.second]), least, "{text}");
    }
    assert_eq!(one_race("S W1 W0 E W1 W0").map(|race| (race.first, race.second)), Some((1, 4)));
}

#[test]
fn places_freeze_at_the_race_and_labels_go_on() {
    // record 0 races at event 4, record 1 never does
    let text = "S W0 R1 E R0 J W0 R0 R1 S E";
    let (answer, lent) = judged(text, 11);
    assert_eq!(answer.races.len(), 1);
    assert_eq!(lent.places_of(0), [1, 1, NO_PLACE, NO_PLACE]);
    assert_eq!(lent.places_of(1), [NO_PLACE, NO_PLACE, 8, 3]);
    assert_eq!(lent.places_of(2), [BEFORE.into(); 4]);
    assert_eq!((answer.strands, answer.english), (6, 6));
    assert!(lent.labels[..6].iter().all(|&label| label != BEFORE.into()));
    assert!(lent.labels[6..4096].iter().all(|&label| label == BEFORE.into()));
    // up to the race both calls leave the same
    let mut one = Lent::with_lists([9; 3]);
    judge(&job(text), 4, &mut one.labels, &mut one.links, &mut one.places).expect(text);
    assert_eq!(judged(text, 4).1, one);
    assert_eq!(judged(text, 5).1.places, one.places);
}

#[test]
fn k_events_are_judged() {
    let text = "S W1 W0 E W1 W0";
    let seconds = |k| judged(text, k).0.races.iter().map(|race| race.second).collect::<Vec<u64>>();
    assert_eq!([4, 5, 6].map(seconds), [vec![], vec![4], vec![5, 4]]);
    assert_eq!(judged(text, 0).0, JudgedRecords { races: vec![], strands: 1, english: 1, hebrew: 1 });
}

/// The refusal of a call, which must store nothing.
#[track_caller]
fn refused(file: &[u8], k: u64, mut lent: Lent) -> (u64, u64) {
    let before = lent.clone();
    let Refusal { number, event } = lent.judge(file, k).expect_err("refused");
    assert_eq!(lent, before, "{}", vjt::show(file));
    (number, event)
}

#[test]
fn a_list_shorter_than_the_record_count_is_refused() {
    // nothing is raced, and one record is
    for text in ["records 3: W0", "records 3: S W0 E W0"] {
        let file = job(text);
        for k in 0..=events(&file) {
            for lengths in [[2, 3, 3], [3, 2, 3], [3, 3, 2], [2, 9, 9], [9, 0, 9], [0, 0, 0]] {
                assert_eq!(refused(&file, k, Lent::with_lists(lengths)), (16, 0), "{text}, {k} events, {lengths:?}");
            }
            assert!(Lent::with_lists([3; 3]).judge(&file, k).is_ok());
        }
    }
}

#[test]
fn refusals_come_in_their_order() {
    let file = job("records 3: S W0 E W0");
    let short = Lent::with_lists([2, 3, 3]);
    let mut shorter = short.clone();
    shorter.links.pop();
    assert_eq!(refused(&job("records 3: S W0 E W0 E"), 9, shorter.clone()), (10, 4));
    assert_eq!(refused(&file, 5, shorter.clone()), (15, 0));
    assert_eq!(refused(&file, 4, shorter), (14, 0));
    assert_eq!(refused(&file, 4, short), (16, 0));
}

#[test]
fn lines_of_the_records() {
    let printed = |file: &[u8]| String::from_utf8(lines(file)).expect("ASCII");
    assert_eq!(
        printed(&job("name \"plate 7\": S W1 R2 R0 E W1 R2 W0 S E")),
        "race record 0 first 3 second 7 kinds RW\nrace record 1 first 1 second 5 kinds WW\n\
         raced 2 strands 5 english 5 hebrew 5 name plate 7\n"
    );
    let l4 = "race record 1 first 3 second 6 kinds WW\nraced 1 strands 4 english 4 hebrew 4 name L4\n";
    assert_eq!(printed(&job("name \"L4\" records 2: W0 S R0 W1 E R0 W1 J")), l4);
    assert_eq!(printed(&job("")), "clean strands 1 english 1 hebrew 1 name \n");
    assert_eq!(printed(&job("name \"a b \": S E")), "clean strands 3 english 3 hebrew 3 name a b \n");
    assert_eq!(printed(&job("S W0 E W0 E")), "refused 10 event 4\n");
    assert_eq!(printed(&[0; 65_536]), "refused 2 event 0\n");
    assert_eq!(printed(&[0; 65_537]), "too long\n");
}
