//! A job file, whole or damaged, to a text.

use crate::{MARK, TRAILER};

const WIDEST_LINE: usize = 100;

/// The text of a file; `pack` makes the same file of it.
pub fn show(file: &[u8]) -> String {
    if file.len() < TRAILER {
        let bytes = file.iter().map(|byte| format!("{byte:02X}"));
        return lines(std::iter::once("bytes:".to_string()).chain(bytes));
    }
    let (before, trailer) = file.split_at(file.len() - TRAILER);
    let (distance, count, records) = (number(&trailer[..4]), number(&trailer[4..8]), number(&trailer[8..12]));
    let (name, events) = before.split_at(events_start(before.len(), distance, count));
    let mut head = format!("name {} records {records}", quoted(name));
    if distance as usize != events.len() {
        head += &format!(" distance {distance}");
    }
    if count as usize != events.len() / 4 {
        head += &format!(" count {count}");
    }
    if &trailer[12..] != MARK {
        head += &format!(" mark {}", quoted(&trailer[12..]));
    }
    lines(std::iter::once(head + ":").chain(events.chunks_exact(4).map(event)))
}

/// Where the events start: by the distance, else by the event count, else as many whole events as the bytes hold.
fn events_start(before: usize, distance: u32, count: u32) -> usize {
    let (distance, by_count) = (distance as usize, 4 * count as usize);
    let usable = |bytes: &usize| *bytes <= before && bytes.is_multiple_of(4);
    let bytes = [distance, by_count].into_iter().find(usable).unwrap_or(before / 4 * 4);
    before - bytes
}

fn number(bytes: &[u8]) -> u32 {
    bytes.iter().rev().fold(0, |sum, &byte| (sum << 8) | u32::from(byte))
}

fn event(bytes: &[u8]) -> String {
    let record = u16::from_le_bytes([bytes[2], bytes[3]]);
    match (bytes[0], bytes[1], record) {
        (1, 0, 0) => "S".to_string(),
        (2, 0, 0) => "E".to_string(),
        (3, 0, 0) => "J".to_string(),
        (4, 0, _) => format!("R{record}"),
        (5, 0, _) => format!("W{record}"),
        _ => bytes.iter().fold("x".to_string(), |text, byte| text + &format!("{byte:02X}")),
    }
}

fn quoted(bytes: &[u8]) -> String {
    let one = |&byte: &u8| match byte {
        b'"' => "\\\"".to_string(),
        b'\\' => "\\\\".to_string(),
        32..=126 => char::from(byte).to_string(),
        _ => format!("\\x{byte:02X}"),
    };
    format!("\"{}\"", bytes.iter().map(one).collect::<String>())
}

/// The words with spaces between, in lines of bearable width, a line feed at the end.
fn lines(words: impl Iterator<Item = String>) -> String {
    let mut text = String::new();
    let mut width = 0;
    for word in words {
        if width > 0 {
            let breaks = width + 1 + word.len() > WIDEST_LINE;
            text.push(if breaks { '\n' } else { ' ' });
            width = if breaks { 0 } else { width + 1 };
        }
        width += word.len();
        text += &word;
    }
    text + "\n"
}
