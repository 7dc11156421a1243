//! The rules' small jobs, the whole file `L4`, and each refusal by a file.

use second::{judge, line, question, read, write, Judged, Refusal, Relation, LABELS, LINKS, PLACES};

const NO_LINK: u16 = u16::MAX;
const NO_PLACE: u32 = u32::MAX;

fn job(text: &str) -> Vec<u8> {
    vjt::pack(text).unwrap_or_else(|wrong| panic!("{text}: {wrong}"))
}

fn events(file: &[u8]) -> u64 {
    (read(file).expect("accepted").events.len() / 4) as u64
}

/// Everything judging gives and stores, over buffers of one content.
fn judged(file: &[u8], k: u64) -> (Result<Judged, Refusal>, Vec<u64>, Vec<u16>, Vec<u32>) {
    let (mut labels, mut links, mut places) = (vec![7; LABELS + 1], vec![7; LINKS + 1], vec![7; PLACES + 1]);
    let answer = judge(file, k, &mut labels, &mut links, &mut places);
    (answer, labels, links, places)
}

fn judged_whole(text: &str) -> Judged {
    let file = job(text);
    judged(&file, events(&file)).0.expect(text)
}

#[track_caller]
fn clean(text: &str) {
    assert_eq!(judged_whole(text).race, None, "{text}");
}

#[track_caller]
fn race(text: &str, first: u64, second: u64) {
    let race = judged_whole(text).race.unwrap_or_else(|| panic!("{text}: clean"));
    assert_eq!((race.first, race.second), (first, second), "{text}");
}

#[track_caller]
fn refused(file: &[u8], number: u64, event: u64) {
    assert_eq!(read(file), Err(Refusal { number, event }), "{}", vjt::show(file));
}

#[test]
fn starred_jobs() {
    assert_eq!(judged_whole(""), Judged { race: None, strands: 1, english: 1, hebrew: 1 });
    clean("W0 R0");
    race("S W0 E W0", 1, 3);
    clean("S W0 E J W0");
    assert_eq!(judged_whole("S W0 E J W0").strands, 4);
    race("S R0 E R0 W0", 1, 4);
    race("S R0 W0 E W0", 2, 4);
    race("S W0 E S W0 E", 1, 4);
    clean("S W0 E J S W0 E");
    race("S S W0 E J E W0", 2, 6);
    race("S W0 E S J W0 E", 1, 5);
    // the J begins no strand: root, child, root, second child
    assert_eq!(judged_whole("S W0 E S J W0 E").strands, 4);
}

#[test]
fn jobs_at_the_limits() {
    let nested = |depth| "S ".repeat(depth) + &"E ".repeat(depth);
    assert_eq!(judged_whole(&nested(63)).strands, 127);
    refused(&job(&nested(64)), 11, 63);
    assert_eq!(judged_whole(&("S E ".repeat(2047) + "J")).strands, 4096);
    refused(&job(&"S E ".repeat(2048)), 12, 4095);
    // 4,096 strands and a child waiting: the sync would begin one more
    refused(&job(&("S E J ".to_string() + &"S E ".repeat(2046) + "J")), 12, 4095);
}

#[test]
fn label_counts() {
    let pairs = |count| judged_whole(&"S E ".repeat(count));
    assert_eq!((pairs(32).strands, pairs(32).english), (65, 129));
    assert!(pairs(32).hebrew <= 130);
    assert_eq!(pairs(65).english, 259);
}

#[test]
fn the_whole_file_l4() {
    let file = job("name \"L4\" records 2: W0 S R0 W1 E R0 W1 J");
    let read = read(&file).expect("accepted");
    assert_eq!((read.name, read.events, read.records), (&file[..2], &file[2..34], 2));
    let expected = "race record 1 first 3 second 6 kinds WW strands 3 english 3 hebrew 3 name L4\n";
    assert_eq!(String::from_utf8(line(&file)).as_deref(), Ok(expected));
    let (_, labels, links, places) = judged(&file, 8);
    assert_eq!(labels[..3], [9223372036854775808, 13835058055282163711, 16140901064495857663]);
    assert_eq!(labels[4096 + 2], 11529215046068469759);
    assert_eq!((&links[..3], &links[4096..4099]), (&[1, 2, NO_LINK][..], &[NO_LINK, 0, 1][..]));
    assert_eq!((&links[8192..8195], &links[12288..12291]), (&[2, NO_LINK, 1][..], &[NO_LINK, 2, 0][..]));
    assert_eq!((&places[..2], &places[4096..4098]), (&[0, 3][..], &[0, 1][..]));
    assert_eq!((&places[8192..8194], &places[12288..12290]), (&[2, NO_PLACE][..], &[1, NO_PLACE][..]));
}

#[test]
fn entries_not_named_keep_what_they_had() {
    let file = job("records 2: W0 S E");
    let (answer, labels, links, places) = judged(&file, 2);
    assert_eq!(answer.map(|judged| judged.strands), Ok(2));
    let stored = |length: usize, halves: &[usize], each: usize| -> Vec<bool> {
        (0..length).map(|at| halves.iter().any(|&half| (half..half + each).contains(&at))).collect()
    };
    let quarters = [0, 4096, 8192, 12288];
    assert!(labels.iter().zip(stored(LABELS + 1, &[0, 4096], 2)).all(|(&label, stored)| (label != 7) == stored));
    assert!(links.iter().zip(stored(LINKS + 1, &quarters, 2)).all(|(&link, stored)| (link != 7) == stored));
    assert!(places.iter().zip(stored(PLACES + 1, &quarters, 2)).all(|(&place, stored)| (place != 7) == stored));
}

#[test]
fn k_events_are_judged() {
    let file = job("S W0 E W0 W0");
    assert_eq!(judged(&file, 3).0.map(|judged| (judged.race, judged.strands)), Ok((None, 3)));
    assert_eq!(judged(&file, 4).0, judged(&file, 5).0);
    assert_eq!(judged(&file, 0).0, Ok(Judged { race: None, strands: 1, english: 1, hebrew: 1 }));
}

#[test]
fn the_standing_read_is_an_event() {
    let places_after = |text: &str| {
        let file = job(text);
        judged(&file, events(&file)).3[8192]
    };
    assert_eq!(places_after("R0 R0"), 1);
    assert_eq!(places_after("S R0 E R0"), 1);
    assert_eq!(places_after("S R0 E R0 J R0"), 5);
}

#[test]
fn the_question() {
    let file = job("S W0 E R0 J W0");
    let asked = |i, j| question(&file, i, j);
    assert_eq!(asked(1, 1), Ok(Relation::Same));
    assert_eq!(asked(1, 5), Ok(Relation::Before));
    assert_eq!(asked(5, 1), Ok(Relation::After));
    assert_eq!(asked(1, 3), Ok(Relation::Parallel));
    assert_eq!(asked(3, 1), Ok(Relation::Parallel));
    for (i, j, number) in [(6, 1, 15), (1, 6, 15), (0, 6, 15), (6, 0, 15), (0, 1, 18), (1, 4, 18), (0, 0, 18)] {
        assert_eq!(asked(i, j), Err(Refusal { number, event: 0 }), "{i} {j}");
    }
}

#[test]
fn refusals_of_the_trailer_and_the_name() {
    refused(b"VJT1", 1, 0);
    refused(&job("")[1..], 1, 0);
    refused(&job("mark \"VJT2\": E"), 2, 0);
    refused(&job("records 0 count 9: E"), 3, 0);
    refused(&job("records 4097: E"), 3, 0);
    refused(&job("count 1000001: E"), 4, 0);
    refused(&job("distance 5: E"), 5, 0);
    refused(&job("distance 0: E"), 5, 0);
    refused(&job("name \"a\" distance 8 count 2: S"), 6, 0);
    refused(&job(&format!("name \"{}\": E", "a".repeat(65))), 7, 0);
    refused(&job("name \"\\x1F\": E"), 7, 0);
    refused(&job("name \"\\x7F\": E"), 7, 0);
    assert!(read(&job(&format!("name \"{} ~\" records 4096: R4095", "a".repeat(62)))).is_ok());
}

#[test]
fn refusals_of_the_events() {
    refused(&job("R0 x00000000"), 8, 1);
    refused(&job("R0 x06000000"), 8, 1);
    refused(&job("R0 x04010000"), 8, 1);
    refused(&job("R0 x01000100"), 8, 1);
    refused(&job("R0 x02000001"), 8, 1);
    refused(&job("R0 x03000100"), 8, 1);
    refused(&job("records 2: R0 R1 R2"), 9, 2);
    refused(&job("records 2: W2"), 9, 0);
    refused(&job("S E E"), 10, 2);
    refused(&job("R0 S S E"), 13, 0);
    refused(&job("S x00000000"), 8, 1);
}

#[test]
fn the_whole_file_is_checked_past_k_and_past_a_race() {
    let file = job("S W0 E W0 E");
    assert_eq!(judged(&file, 0).0, Err(Refusal { number: 10, event: 4 }));
    assert_eq!(judged(&file, 9).0, Err(Refusal { number: 10, event: 4 }));
}

#[test]
fn refusals_of_judging_store_nothing() {
    let file = job("W0");
    let (answer, labels, links, places) = judged(&file, 2);
    assert_eq!(answer, Err(Refusal { number: 15, event: 0 }));
    assert!(labels.iter().all(|&entry| entry == 7) && links.iter().all(|&entry| entry == 7));
    assert!(places.iter().all(|&entry| entry == 7));
    for short in 0..3 {
        let lengths = [LABELS, LINKS, PLACES].map(|length| length - 1);
        let length = |buffer: usize| lengths[buffer] + usize::from(buffer != short);
        let (mut labels, mut links, mut places) = (vec![7; length(0)], vec![7; length(1)], vec![7; length(2)]);
        let answer = judge(&file, 1, &mut labels, &mut links, &mut places);
        assert_eq!(answer, Err(Refusal { number: 14, event: 0 }));
        assert!(labels.iter().all(|&entry| entry == 7) && links.iter().all(|&entry| entry == 7));
        assert!(places.iter().all(|&entry| entry == 7));
        assert_eq!(judge(&file, 2, &mut labels, &mut links, &mut places).map_err(|refusal| refusal.number), Err(15));
    }
}

#[test]
fn writing() {
    let file = job("name \"L4\" records 2: W0 S R0 W1 E R0 W1 J");
    let mut out = vec![7; file.len() + 3];
    assert_eq!(write(b"L4", 2, &file[2..34], &mut out), Ok(file.len() as u64));
    assert_eq!(out, [&file[..], &[7, 7, 7]].concat());
    assert_eq!(write(b"", 1, b"", &mut out), Ok(16));
}

#[test]
fn refusals_of_writing_store_nothing() {
    let written = |name: &[u8], records: u64, events: &[u8], length: usize| {
        let mut out = vec![7; length];
        let answer = write(name, records, events, &mut out).expect_err("refused");
        assert!(out.iter().all(|&byte| byte == 7));
        (answer.number, answer.event)
    };
    let (end, spawn) = ([2, 0, 0, 0], [1, 0, 0, 0]);
    assert_eq!(written(b"\n", 0, b"1", 0), (7, 0));
    assert_eq!(written(b"", 0, b"1", 0), (3, 0));
    assert_eq!(written(b"", 4097, b"1", 0), (3, 0));
    assert_eq!(written(b"", 1, &vec![0; 4_000_005], 0), (5, 0));
    assert_eq!(written(b"", 1, &vec![0; 4_000_004], 0), (4, 0));
    assert_eq!(written(b"", 1, &[0; 4], 0), (8, 0));
    assert_eq!(written(b"", 1, &[5, 0, 1, 0], 0), (9, 0));
    assert_eq!(written(b"", 1, &[spawn, end, end].concat(), 0), (10, 2));
    assert_eq!(written(b"", 1, &spawn.repeat(64), 0), (11, 63));
    assert_eq!(written(b"", 1, &[spawn, end].concat().repeat(2048), 0), (12, 4095));
    assert_eq!(written(b"", 1, &spawn, 0), (13, 0));
    assert_eq!(written(b"L4", 1, &[spawn, end].concat(), 25), (16, 0));
}

#[test]
fn lines() {
    let printed = |file: &[u8]| String::from_utf8(line(file)).expect("ASCII");
    assert_eq!(printed(&job("")), "clean strands 1 english 1 hebrew 1 name \n");
    assert_eq!(printed(&job("name \"a b \": S E")), "clean strands 3 english 3 hebrew 3 name a b \n");
    assert_eq!(printed(&job("S R0 E R0 W0")).split(" strands").next(), Some("race record 0 first 1 second 4 kinds RW"));
    assert_eq!(printed(&job("S W0 E R0")).split(" strands").next(), Some("race record 0 first 1 second 3 kinds WR"));
    assert_eq!(printed(&job("S E E")), "refused 10 event 2\n");
    assert_eq!(printed(b""), "refused 1 event 0\n");
    assert_eq!(printed(&[0; 65_536]), "refused 2 event 0\n");
    assert_eq!(printed(&[0; 65_537]), "too long\n");
    assert_eq!(printed(&job(&"R0 ".repeat(16_380))).len(), "clean strands 1 english 1 hebrew 1 name \n".len());
}
