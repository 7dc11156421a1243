//! Three Rust programs and the jobs on which they and the library are timed: plain, as C-24 has it; marked, the same with the mark;
//! and tuned.

pub mod check;
pub mod event;
#[cfg(feature = "rattle")]
mod growing;
pub mod jobs;
pub mod kind;
pub mod order;
pub mod rival;
pub mod sides;
pub mod state;
pub mod tuned;
pub mod turns;
