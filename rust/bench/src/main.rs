//! Times judging and the check by the three Rust programs and, with the feature `rattle`, by the library, and prints three tables:
//! judging, the check alone, and how time grows with the number of events.

use arguments::{Arguments, Wrong};
use bench::jobs::{growth, judging, orders, Row};
use bench::sides::{self, events_of, Buffers};
use bench::turns::{best, head, line};
use compare::calls::Calls;
use std::hint::black_box;
use std::process::ExitCode;
use std::time::{Duration, Instant};

const USAGE: &str = "usage: bench [--seed N] [--jobs N] [--rounds N] [--short]
  --seed N    which jobs are made (1)
  --jobs N    how many jobs of about 16,000 events (1000)
  --rounds N  how often each is timed; the best time of each job counts (9)
  --short     few jobs and rounds (150 and 9)";

/// The columns of the sides that judge, and of the library's time over that of each program.
const JUDGES: [&str; 7] = ["plain", "marked", "tuned", "library", "to plain", "to marked", "to tuned"];

struct Options {
    seed: u64,
    jobs: u64,
    rounds: u64,
}

fn main() -> ExitCode {
    let options = match arguments::read("bench", USAGE, options) {
        Ok(options) => options,
        Err(code) => return code,
    };
    match run(&options) {
        Ok(()) => ExitCode::SUCCESS,
        Err(wrong) => {
            eprintln!("bench: {wrong}");
            ExitCode::FAILURE
        }
    }
}

fn options(arguments: &mut Arguments) -> Result<Options, Wrong> {
    let mut options = Options { seed: 1, jobs: 1000, rounds: 9 };
    while let Some(option) = arguments.next() {
        match option.as_str() {
            "--seed" => options.seed = arguments.number(&option)?,
            "--jobs" => options.jobs = arguments.number(&option)?,
            "--rounds" => options.rounds = arguments.number(&option)?,
            "--short" => (options.jobs, options.rounds) = (150, 9),
            _ => return Err(Wrong::unknown(&option)),
        }
    }
    Ok(options)
}

fn run(options: &Options) -> Result<(), String> {
    let Options { seed, jobs, rounds } = *options;
    println!("seed {seed} jobs {jobs} rounds {rounds}; microseconds a job\n");
    let whole = judging(seed, jobs as usize);
    println!("{}", head(&[&["jobs", "count", "events", "strands"], &JUDGES[..]].concat()));
    for row in whole.iter().chain(&orders(seed, 20)) {
        println!("{}", judged(row, rounds)?);
    }
    println!(
        "\nthe check alone; microseconds a job\n\n{}",
        head(&["jobs", "Rust", "tuned", "library", "to Rust", "to tuned"])
    );
    for row in &whole {
        println!("{}", checked(row, rounds)?);
    }
    println!("\ndeep jobs, past 16,000 events accesses only; microseconds a thousand events\n");
    println!("{}", head(&[&["events", "count"], &JUDGES[..]].concat()));
    for row in growth(seed) {
        println!("{}", grown(&row, rounds)?);
    }
    Ok(())
}

/// A line of the first table: whole jobs.
fn judged(row: &Row, rounds: u64) -> Result<String, String> {
    let count = row.files.len() as u64;
    let strands = row.files.iter().map(|file| agreed_judging(file)).sum::<Result<u64, String>>()? / count;
    let events = row.files.iter().map(|file| events_of(file)).sum::<u64>() / count;
    let what = vec![row.what.clone(), count.to_string(), events.to_string(), strands.to_string()];
    Ok(line(what, 3, &mean(row, &sides::judging(), rounds, judging_time)))
}

/// A line of the second table: the check alone.
fn checked(row: &Row, rounds: u64) -> Result<String, String> {
    row.files.iter().try_for_each(|file| agreed_check(file))?;
    Ok(line(vec![row.what.clone()], 2, &mean(row, &sides::checking(), rounds, check_time)))
}

/// A line of the third table: jobs of one length, a thousand events' part of their time.
fn grown(row: &Row, rounds: u64) -> Result<String, String> {
    row.files.iter().try_for_each(|file| agreed_judging(file).map(|_| ()))?;
    let times = mean(row, &sides::judging(), rounds, judging_time);
    let thousands = events_of(&row.files[0]) as f64 / 1000.0;
    let part: Vec<f64> = times.iter().map(|time| time / thousands).collect();
    Ok(line(vec![row.what.clone(), row.files.len().to_string()], 3, &part))
}

/// Each side's mean over the jobs of its best times, in microseconds.
fn mean(row: &Row, sides: &[&dyn Calls], rounds: u64, time: fn(&dyn Calls, &[u8]) -> Duration) -> Vec<f64> {
    let mut total = vec![Duration::ZERO; sides.len()];
    for file in &row.files {
        let best = best(sides, rounds, |side| time(side, file));
        total.iter_mut().zip(best).for_each(|(total, best)| *total += best);
    }
    total.iter().map(|sum| sum.as_secs_f64() * 1e6 / row.files.len() as f64).collect()
}

/// The strands of a file, about which all sides answer the same, clean, and leave the same in every entry of the buffers.
fn agreed_judging(file: &[u8]) -> Result<u64, String> {
    let mut outcomes = sides::judging().into_iter().map(|side| {
        let mut buffers = Buffers::used();
        (buffers.judge(side, file), buffers)
    });
    let Some((answer, buffers)) = outcomes.next() else { return Err("no side".to_string()) };
    if answer[0] != 0 || answer[2] != 0 {
        return Err(format!("a timed job is not clean: {answer:?}"));
    }
    for (other, others) in outcomes {
        if other != answer {
            return Err(format!("the sides differ: {answer:?} and {other:?}"));
        }
        if others != buffers {
            return Err("the sides leave different buffers".to_string());
        }
    }
    Ok(answer[6])
}

/// All sides accept a file and answer the same.
fn agreed_check(file: &[u8]) -> Result<(), String> {
    let answers: Vec<[u64; 6]> = sides::checking().iter().map(|side| side.read(file)).collect();
    if answers.iter().any(|answer| answer[0] != 0 || *answer != answers[0]) {
        return Err(format!("a timed job is refused or the sides differ: {answers:?}"));
    }
    Ok(())
}

/// The time of judging a whole file; the buffers are made outside it.
fn judging_time(side: &dyn Calls, file: &[u8]) -> Duration {
    let mut buffers = Buffers::used();
    let start = Instant::now();
    black_box(buffers.judge(side, black_box(file)));
    start.elapsed()
}

fn check_time(side: &dyn Calls, file: &[u8]) -> Duration {
    let start = Instant::now();
    black_box(side.read(black_box(file)));
    start.elapsed()
}
