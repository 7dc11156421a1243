//! The second program from the command line: a file in, the line or the lines out.

use std::io::Write;
use std::process::{Command, Stdio};

const JUDGE: &str = env!("CARGO_BIN_EXE_second");
const RECORDS: &str = env!("CARGO_BIN_EXE_records");

fn printed(program: &str, input: &[u8]) -> String {
    let mut child = Command::new(program).stdin(Stdio::piped()).stdout(Stdio::piped()).spawn().expect("it starts");
    // It reads one byte more than it takes, and no further.
    let _ = child.stdin.take().expect("piped").write_all(input);
    let output = child.wait_with_output().expect("the program ends");
    assert!(output.status.success());
    String::from_utf8(output.stdout).expect("ASCII")
}

#[test]
fn one_line_whatever_comes_in() {
    let file = vjt::pack("name \"L4\" records 2: W0 S R0 W1 E R0 W1 J").expect("a text of this file");
    let line = "race record 1 first 3 second 6 kinds WW strands 3 english 3 hebrew 3 name L4\n";
    assert_eq!(printed(JUDGE, &file), line);
    for program in [JUDGE, RECORDS] {
        assert_eq!(printed(program, b""), "refused 1 event 0\n");
        assert_eq!(printed(program, &[0; 65_536]), "refused 2 event 0\n");
        assert_eq!(printed(program, &vec![0; 200_000]), "too long\n");
    }
}

#[test]
fn a_line_for_each_raced_record() {
    let file = vjt::pack("name \"two\": S W1 W0 E W1 W0").expect("a text of this file");
    let lines = "race record 0 first 2 second 5 kinds WW\nrace record 1 first 1 second 4 kinds WW\n\
                 raced 2 strands 3 english 3 hebrew 3 name two\n";
    assert_eq!(printed(RECORDS, &file), lines);
}
