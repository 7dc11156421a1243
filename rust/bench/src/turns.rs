//! The times of the sides. They take turns, so that all meet the same machine; the library, if it is there, is the last of them.

use std::time::Duration;

/// The best time of each side in some rounds. Another side begins each round.
pub fn best<S: Copy>(sides: &[S], rounds: u64, timed: impl Fn(S) -> Duration) -> Vec<Duration> {
    let mut best = vec![Duration::MAX; sides.len()];
    for round in 0..rounds.max(1) as usize {
        for turn in 0..sides.len() {
            let side = (round + turn) % sides.len();
            best[side] = best[side].min(timed(sides[side]));
        }
    }
    best
}

/// A line of a table: the cells of what was timed, the times of so many programs, the library's, and the library's over each of theirs.
pub fn line(mut cells: Vec<String>, programs: usize, times: &[f64]) -> String {
    let (programs, library) = times.split_at(programs);
    let shown = |number: Option<String>| number.unwrap_or("-".to_string());
    let time = |time: &f64| format!("{time:.*}", if *time < 100.0 { 2 } else { 1 });
    let ratio = |program: &f64| shown(library.first().map(|library| format!("{:.3}", library / program)));
    cells.extend(programs.iter().map(time));
    cells.push(shown(library.first().map(time)));
    cells.extend(programs.iter().map(ratio));
    format!("| {} |", cells.join(" | "))
}

/// The first lines of a table.
pub fn head(columns: &[&str]) -> String {
    format!("| {} |\n|{}", columns.join(" | "), "---|".repeat(columns.len()))
}
