//! An independent second program for the judge of fork-join jobs: the rules' sentences carried out by brute force.
//! Parallel is decided by its sentence, orders by sorting, labels by redoing the whole history, places by scanning.

mod file;
mod judge;
mod line;
mod orders;
mod race;
mod records;
mod trace;

pub use file::{read, write, Job, Refusal};
pub use judge::{judge, question, Judged, Race, Relation, LABELS, LINKS, PLACES};
pub use line::{line, lines, print};
pub use records::{judge_records, JudgedRecords};
