//! The Rust programs as further witnesses: they agree with the second program, and the timed jobs are what they should be.

use bench::check::check;
use bench::jobs;
use bench::sides::{Buffers, MARKED, PLAIN, TUNED};
use compare::calls::{Calls, Second};
use compare::differ::Sides;
use compare::files::{generated, limits};
use compare::random::Random;
use compare::tally::Tally;

/// On the files at the limits and on some generated ones.
fn agrees_with_the_second_program(program: &dyn Calls) {
    let mut sides = Sides { one: &Second, other: program, tally: Tally::default() };
    for (number, (what, file)) in limits().iter().enumerate() {
        assert_eq!(sides.difference(&mut Random::of_file(3, number as u64), file), None, "{what}");
    }
    for number in 0..1000 {
        let file = generated(3, number);
        assert_eq!(
            sides.difference(&mut Random::of_file(3, number), &file),
            None,
            "file {number}: {}",
            vjt::show(&file)
        );
    }
}

#[test]
fn the_plain_one_agrees_with_the_second_program() {
    agrees_with_the_second_program(&PLAIN);
}

#[test]
fn the_marked_one_agrees_with_the_second_program() {
    agrees_with_the_second_program(&MARKED);
}

#[test]
fn the_tuned_one_agrees_with_the_second_program() {
    agrees_with_the_second_program(&TUNED);
}

#[test]
fn timed_jobs_are_long_and_clean() {
    for row in jobs::judging(1, 4) {
        for file in &row.files {
            let strands = strands_if_clean(file);
            assert!(file.len() > 60_000 && strands > Some(3_000), "{}: {strands:?}", row.what);
        }
    }
    for row in jobs::orders(1, 2) {
        assert!(row.files.iter().all(|file| strands_if_clean(file) == Some(4096)), "{}", row.what);
    }
}

#[test]
fn growing_jobs_have_their_length_and_are_clean() {
    let lengths = [1_000, 4_000, 16_000, 64_000, 256_000, 1_000_000];
    let rows: Vec<jobs::Row> = jobs::growth(1).collect();
    assert_eq!(rows.len(), lengths.len());
    for (row, length) in rows.iter().zip(lengths) {
        assert!(row.files.len() >= 3, "{length}");
        for file in &row.files {
            let accepted = check(file).unwrap();
            assert_eq!(accepted.count, length);
            let past_deep = accepted.events(file, length).iter().skip(16_000);
            assert!(past_deep.copied().all(|[kind, ..]| kind >= 4), "{length}");
            assert!(strands_if_clean(file) > Some(100), "{length}");
        }
    }
}

/// The strands of a job, unless it is refused or races.
fn strands_if_clean(file: &[u8]) -> Option<u64> {
    let answer = Buffers::used().judge(&PLAIN, file);
    (answer[0] == 0 && answer[2] == 0).then_some(answer[6])
}
