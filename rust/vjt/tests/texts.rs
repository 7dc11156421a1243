//! Texts and the files they stand for, both ways, and what is said of a wrong text.

use vjt::{pack, pack_with, show, Options};

const L4: &str =
    "4C 34 05 00 00 00 01 00 00 00 04 00 00 00 05 00 01 00 02 00 00 00 04 00 00 00 05 00 01 00 03 00 00 00 \
                  20 00 00 00 08 00 00 00 02 00 00 00 56 4A 54 31";

fn packed(text: &str) -> Vec<u8> {
    pack(text).unwrap_or_else(|wrong| panic!("{text}: {wrong}"))
}

#[track_caller]
fn shows(text: &str) {
    assert_eq!(show(&packed(text)), format!("{text}\n"));
}

#[track_caller]
fn wrong(text: &str, line: usize, column: usize, word: &str) {
    let error = pack(text).expect_err(text);
    assert_eq!((error.line, error.column, error.word.as_str()), (line, column, word), "{error}");
}

#[test]
fn the_whole_file_l4() {
    let file = packed(&format!("bytes: {L4}"));
    assert_eq!(file.len(), 50);
    assert_eq!(packed("name \"L4\" records 2: W0 S R0 W1 E R0 W1 J"), file);
    assert_eq!(show(&file), "name \"L4\" records 2: W0 S R0 W1 E R0 W1 J\n");
}

#[test]
fn name_and_records_may_be_left_out() {
    assert_eq!(packed(""), packed("name \"\" records 1:"));
    assert_eq!(packed("S W0 E W0"), packed("name \"\" records 1: S W0 E W0"));
    assert_eq!(packed("R2 W7 R3"), packed("records 8: R2 W7 R3"));
    assert_eq!(packed("R65535"), packed("records 65536: R65535"));
}

#[test]
fn the_command_line_goes_over_the_text() {
    let options = Options { name: Some(b"L5".to_vec()), records: Some(3) };
    assert_eq!(pack_with("name \"L4\" records 2: W0", options), pack("name \"L5\" records 3: W0"));
}

#[test]
fn white_space_parts_words_and_nothing_else() {
    assert_eq!(packed(" S\tW0\n\n E  "), packed("S W0 E"));
    assert_eq!(packed("name\"L4\"records 2:S E"), packed("name \"L4\" records 2: S E"));
}

#[test]
fn any_file_shows_and_packs_again() {
    shows("name \"\" records 1:");
    shows("name \"a \\\"b\\\" \\\\ c: d\" records 4096: S W0 E J R4095");
    shows("name \"\\x1F\\x7F\\xFF\" records 0: S");
    shows("name \"L4\" records 2 mark \"VJT9\": S E");
    shows("name \"L4\" records 2 distance 3: S E");
    shows("name \"L4\" records 2 distance 4294967295 count 4294967295: S E");
    shows("name \"\" records 1: x00000000 x01000100 x06000000 x04010000 S");
    shows("bytes:");
    shows("bytes: 4C 34 00 FF");
}

#[test]
fn damaged_files_pack_again_bit_by_bit() {
    let file = packed("name \"L4\" records 2: W0 S R0 W1 E R0 W1 J");
    for bit in 0..8 * file.len() {
        let mut damaged = file.clone();
        damaged[bit / 8] ^= 1 << (bit % 8);
        assert_eq!(packed(&show(&damaged)), damaged, "bit {bit}");
    }
    for cut in 0..file.len() {
        assert_eq!(packed(&show(&file[cut..])), file[cut..], "from {cut}");
        assert_eq!(packed(&show(&file[..cut])), file[..cut], "up to {cut}");
    }
}

#[test]
fn long_jobs_are_shown_in_lines() {
    let file = packed(&"S W0 E ".repeat(100));
    let text = show(&file);
    assert!(text.lines().count() > 1 && text.lines().all(|line| line.len() <= 100));
    assert_eq!(packed(&text), file);
}

#[test]
fn a_wrong_word_is_named_with_its_place() {
    wrong("S W0 Q E", 1, 6, "Q");
    wrong("S W0\n  E s", 2, 5, "s");
    wrong("S W", 1, 3, "W");
    wrong("R65536", 1, 1, "R65536");
    wrong("R-1", 1, 1, "R-1");
    wrong("x0600000", 1, 1, "x0600000");
    wrong("x0600000g", 1, 1, "x0600000g");
    wrong("é", 1, 1, "é");
    wrong("bytes: 4C 3", 1, 11, "3");
    wrong("bytes: +1", 1, 8, "+1");
}

#[test]
fn a_wrong_field_is_named_with_its_place() {
    wrong("nam \"L4\": S", 1, 1, "nam");
    wrong("name L4: S", 1, 6, "L4");
    wrong("name \"L4: S", 1, 6, "\"L4: S");
    wrong("name \"\\y\": S", 1, 6, "\"\\y\"");
    wrong("name \"é\": S", 1, 6, "\"é\"");
    wrong("name \"L4\" records: S", 1, 11, "records");
    wrong("records 4294967296: S", 1, 9, "4294967296");
    wrong("records 1 records 1: S", 1, 11, "records");
    wrong("mark \"VJT\": S", 1, 6, "\"VJT\"");
    wrong("bytes records 1: 4C", 1, 7, "records");
    wrong("S : E", 1, 1, "S");
}
