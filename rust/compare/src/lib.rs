//! Runs two sides on generated and damaged job files and finds where they differ: the library behind the C interface and the
//! second program, or the programs `judge` and `records` and the second program's lines.

pub mod blocks;
pub mod calls;
pub mod damage;
pub mod differ;
#[cfg(feature = "rattle")]
pub mod ffi;
pub mod files;
pub mod jobs;
pub mod program;
pub mod random;
pub mod script;
pub mod shrink;
pub mod tally;
