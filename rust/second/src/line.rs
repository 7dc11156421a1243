//! What the programs print: `judge` one line, `records` a line for each raced record and one for the job.

use crate::file::{read, Refusal, MOST_RECORDS};
use crate::judge::{judge, Judged, Race, LABELS, LINKS, PLACES};
use crate::records::{judge_records, JudgedRecords};
use std::io::{self, Read, Write};

/// "The program takes 65,536 bytes at most from standard input".
pub const LONGEST_INPUT: usize = 65_536;

/// Prints what `lines` says of the input on standard input, of which it reads one byte more than the program takes, and no further.
pub fn print(lines: fn(&[u8]) -> Vec<u8>) -> io::Result<()> {
    let mut input = Vec::new();
    io::stdin().take(LONGEST_INPUT as u64 + 1).read_to_end(&mut input)?;
    io::stdout().write_all(&lines(&input))
}

/// The line of `judge` for an input, with the line feed at its end. All the events of the input are judged.
pub fn line(input: &[u8]) -> Vec<u8> {
    printed(input, |k| {
        let judged = judge(input, k, &mut [0; LABELS], &mut [0; LINKS], &mut [0; PLACES])?;
        Ok(told(&judged))
    })
}

/// The lines of `records` for an input, each with the line feed at its end. All the events of the input are judged.
pub fn lines(input: &[u8]) -> Vec<u8> {
    printed(input, |k| {
        let mut lists = [[0; MOST_RECORDS as usize]; 3];
        let lists = lists.each_mut().map(|list| list.as_mut_slice());
        let judged = judge_records(input, k, &mut [0; LABELS], &mut [0; LINKS], &mut [0; PLACES], lists)?;
        Ok(told_of_records(&judged))
    })
}

/// What `tell` says of all the events of an input, then its name; or the refusal, or that the input is too long.
fn printed(input: &[u8], tell: impl FnOnce(u64) -> Result<String, Refusal>) -> Vec<u8> {
    if input.len() > LONGEST_INPUT {
        return b"too long\n".to_vec();
    }
    match read(input).and_then(|job| Ok((tell((job.events.len() / 4) as u64)?, job.name))) {
        Ok((told, name)) => [told.as_bytes(), b" name ", name, b"\n"].concat(),
        Err(Refusal { number, event }) => format!("refused {number} event {event}\n").into_bytes(),
    }
}

/// The line up to the name.
fn told(judged: &Judged) -> String {
    let Judged { race, strands, english, hebrew } = judged;
    let found = race.as_ref().map_or("clean".to_string(), told_of_race);
    format!("{found} strands {strands} english {english} hebrew {hebrew}")
}

/// The lines up to the name.
fn told_of_records(judged: &JudgedRecords) -> String {
    let JudgedRecords { races, strands, english, hebrew } = judged;
    let found = match races.len() {
        0 => "clean".to_string(),
        raced => format!("raced {raced}"),
    };
    let races: String = races.iter().map(|race| told_of_race(race) + "\n").collect();
    format!("{races}{found} strands {strands} english {english} hebrew {hebrew}")
}

fn told_of_race(race: &Race) -> String {
    let kinds: String = race.writes.iter().map(|&write| if write { 'W' } else { 'R' }).collect();
    format!("race record {} first {} second {} kinds {kinds}", race.record, race.first, race.second)
}
