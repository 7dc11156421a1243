//! A text to a job file.

use crate::word::{hex_byte, words, Error, Word};
use crate::{MARK, TRAILER};

/// What the command line gives; it goes over what the text says.
#[derive(Clone, Debug, Default)]
pub struct Options {
    pub name: Option<Vec<u8>>,
    pub records: Option<u32>,
}

/// What stands ahead of the colon. Without a record count it is the least that the events allow.
#[derive(Default)]
struct Fields {
    name: Option<Vec<u8>>,
    records: Option<u32>,
    distance: Option<u32>,
    count: Option<u32>,
    mark: Option<[u8; 4]>,
}

/// The job file of a text.
pub fn pack(text: &str) -> Result<Vec<u8>, Error> {
    pack_with(text, Options::default())
}

/// The job file of a text, with the name and the record count given from outside.
pub fn pack_with(text: &str, options: Options) -> Result<Vec<u8>, Error> {
    let words = words(text)?;
    let (head, rest) = match words.iter().position(|word| word.text == ":") {
        Some(colon) => (&words[..colon], &words[colon + 1..]),
        None => (&words[..0], &words[..]),
    };
    if head.first().is_some_and(|word| word.text == "bytes") {
        return plain_bytes(head, rest);
    }
    let mut fields = fields(head)?;
    fields.name = options.name.or(fields.name);
    fields.records = options.records.or(fields.records);
    let events = rest.iter().map(event).collect::<Result<Vec<_>, _>>()?;
    Ok(file(fields, &events))
}

fn file(fields: Fields, events: &[[u8; 4]]) -> Vec<u8> {
    let mut file = fields.name.unwrap_or_default();
    file.reserve(4 * events.len() + TRAILER);
    file.extend(events.concat());
    let count = events.len() as u32;
    file.extend(fields.distance.unwrap_or(count.wrapping_mul(4)).to_le_bytes());
    file.extend(fields.count.unwrap_or(count).to_le_bytes());
    file.extend(fields.records.unwrap_or_else(|| least_records(events)).to_le_bytes());
    file.extend(fields.mark.unwrap_or(*MARK));
    file
}

fn plain_bytes(head: &[Word], rest: &[Word]) -> Result<Vec<u8>, Error> {
    if let Some(word) = head.get(1) {
        return Err(word.error("`bytes` takes no field beside it"));
    }
    rest.iter().map(|word| hex_byte(word.text).ok_or_else(|| word.error("is no byte of two hex digits"))).collect()
}

fn fields(head: &[Word]) -> Result<Fields, Error> {
    let mut fields = Fields::default();
    for pair in head.chunks(2) {
        let [field, value] = pair else {
            return Err(pair[0].error("a value for it is due ahead of the colon"));
        };
        let twice = match field.text {
            "name" => fields.name.replace(value.unquoted()?).is_some(),
            "records" => fields.records.replace(number(value)?).is_some(),
            "distance" => fields.distance.replace(number(value)?).is_some(),
            "count" => fields.count.replace(number(value)?).is_some(),
            "mark" => fields.mark.replace(mark(value)?).is_some(),
            _ => return Err(field.error("is no field: name, records, distance, count, mark or bytes")),
        };
        if twice {
            return Err(field.error("is given twice"));
        }
    }
    Ok(fields)
}

fn number(word: &Word) -> Result<u32, Error> {
    word.text.parse().map_err(|_| word.error("is no number from 0 to 4294967295"))
}

fn mark(word: &Word) -> Result<[u8; 4], Error> {
    let bytes = word.unquoted()?;
    bytes.try_into().map_err(|_| word.error("a mark has four bytes"))
}

/// The four bytes of one word.
fn event(word: &Word) -> Result<[u8; 4], Error> {
    let wrong = || word.error("is no event: S, E, J, R or W with a record number, or x with eight hex digits");
    match word.text {
        "S" => return Ok([1, 0, 0, 0]),
        "E" => return Ok([2, 0, 0, 0]),
        "J" => return Ok([3, 0, 0, 0]),
        _ => {}
    }
    let (letter, rest) = word.text.split_at(word.text.chars().next().map_or(0, char::len_utf8));
    match letter {
        "R" => access(4, rest, word),
        "W" => access(5, rest, word),
        "x" => four_bytes(rest).ok_or_else(wrong),
        _ => Err(wrong()),
    }
}

fn access(kind: u8, record: &str, word: &Word) -> Result<[u8; 4], Error> {
    let record: u16 =
        record.parse().map_err(|_| word.error("a record number from 0 to 65535 is due after the letter"))?;
    let [low, high] = record.to_le_bytes();
    Ok([kind, 0, low, high])
}

fn four_bytes(digits: &str) -> Option<[u8; 4]> {
    if digits.len() != 8 || !digits.is_ascii() {
        return None;
    }
    let byte = |at: usize| hex_byte(&digits[2 * at..2 * at + 2]);
    Some([byte(0)?, byte(1)?, byte(2)?, byte(3)?])
}

/// One more than the largest record that is read or written, and at least 1.
fn least_records(events: &[[u8; 4]]) -> u32 {
    let accesses = events.iter().filter(|event| matches!(event[..2], [4 | 5, 0]));
    accesses.map(|event| u32::from(u16::from_le_bytes([event[2], event[3]])) + 1).max().unwrap_or(1)
}
