//! The comparison with a program: other lines are a difference, a program that cannot be started is an error.

use compare::program::difference;
use std::path::Path;

#[test]
fn other_lines_are_a_difference() {
    let file = vjt::pack("S W0 E W0").expect("a text of this file");
    let told = |lines| difference(Path::new("cat"), &file, lines).expect("cat starts").expect("a difference");
    assert!(told(second::line).contains("race record 0 first 1 second 3 kinds WW strands 3"));
    assert!(told(second::lines).contains("race record 0 first 1 second 3 kinds WW\\nraced 1 strands 3"));
    assert!(difference(Path::new("cat"), &file, <[u8]>::to_vec).expect("cat starts").is_none());
}

#[test]
fn a_program_that_does_not_read_to_the_end_is_heard() {
    let told = difference(Path::new("true"), &vec![0; 1 << 20], second::lines).expect("true starts");
    assert!(told.is_some_and(|text| text.contains("too long")));
}

#[test]
fn no_program_is_an_error() {
    assert!(difference(Path::new("./no-such-program"), b"", second::line).is_err());
}
