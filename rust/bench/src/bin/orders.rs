//! Times one order alone, 4,095 insertions: by the Rust orders of each kind and, with the feature `rattle`, by the library.

use bench::order::STRANDS;
use bench::sides::{growing, Grow};
use bench::turns::{best, head, line};
use std::hint::black_box;
use std::process::ExitCode;
use std::time::{Duration, Instant};

/// Where each strand goes, and the factor of the rule that says so.
const RULES: [(&str, u16); 3] = [("appending", 1), ("always behind the first", 0), ("scattered", 40503)];

/// The tuned program's order is walked from both ends.
const COLUMNS: [&str; 9] =
    ["where", "labels changed", "plain", "marked", "tuned", "library", "to plain", "to marked", "to tuned"];

const ROUNDS: u64 = 1000;

fn main() -> ExitCode {
    println!("4,095 insertions, best of {ROUNDS}; microseconds\n");
    println!("{}", head(&COLUMNS));
    for (what, factor) in RULES {
        let grown: Vec<_> = growing().into_iter().map(|side| grown(side, factor)).collect();
        if grown.iter().any(|other| *other != grown[0]) {
            eprintln!("orders: the sides differ for factor {factor}");
            return ExitCode::FAILURE;
        }
        let best = best(&growing(), ROUNDS, |side| timed(side, factor));
        let times: Vec<f64> = best.iter().map(|time| time.as_secs_f64() * 1e6).collect();
        println!("{}", line(vec![what.to_string(), grown[0].2.to_string()], 3, &times));
    }
    ExitCode::SUCCESS
}

/// The buffers and the count that a side leaves.
fn grown(side: Grow, factor: u16) -> (Vec<u64>, Vec<u16>, u64) {
    let (mut labels, mut links) = (vec![7; STRANDS], vec![7; 2 * STRANDS]);
    let count = side(&mut labels, &mut links, factor);
    (labels, links, count)
}

/// The time of growing an order; the buffers are made outside it.
fn timed(side: Grow, factor: u16) -> Duration {
    let (mut labels, mut links) = (vec![1; STRANDS], vec![1; 2 * STRANDS]);
    let start = Instant::now();
    black_box(side(black_box(&mut labels), black_box(&mut links), factor));
    start.elapsed()
}
