//! Job files to and from a text: `name "L4" records 2: W0 S R0 W1 E R0 W1 J`.
//!
//! Words: `S` spawn, `E` end, `J` sync, `R0` read of record 0, `W0` write of record 0, and `x06000000` for any other four bytes.
//! Everything up to the colon may be left out. Fields ahead of the colon: `name "L4"`, `records 2`, and for files whose trailer does
//! not fit them `distance 36`, `count 9`, `mark "VJT9"`. In a quoted text `\"`, `\\` and `\x07` stand for one byte each.
//! `bytes: 4C 34` is a file byte by byte. Packing what showing gave makes the same file again, whatever the file.
//! Packing looks at the words alone: whether the job they make is accepted is the judge's business.

mod pack;
mod show;
mod word;

pub use pack::{pack, pack_with, Options};
pub use show::show;
pub use word::Error;

const TRAILER: usize = 16;
const MARK: &[u8; 4] = b"VJT1";
