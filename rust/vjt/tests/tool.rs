//! The tool from the command line.

use std::io::Write;
use std::process::{Command, Stdio};

/// Runs the tool and gives what it printed, or its exit code and what it complained of.
fn vjt(arguments: &[&str], input: &[u8]) -> Result<Vec<u8>, (Option<i32>, String)> {
    let mut command = Command::new(env!("CARGO_BIN_EXE_vjt"));
    let command = command.args(arguments).stdin(Stdio::piped()).stdout(Stdio::piped()).stderr(Stdio::piped());
    let mut child = command.spawn().expect("the tool starts");
    // A tool that complains of its command line does not read.
    let _ = child.stdin.take().expect("piped").write_all(input);
    let output = child.wait_with_output().expect("the tool ends");
    if output.status.success() {
        Ok(output.stdout)
    } else {
        Err((output.status.code(), String::from_utf8_lossy(&output.stderr).into_owned()))
    }
}

#[test]
fn packs_and_shows() {
    let file = vjt(&["pack", "--name", "L4", "--records", "3"], b"W0 S R0\nE").expect("packed");
    assert_eq!(vjt::pack("name \"L4\" records 3: W0 S R0 E"), Ok(file.clone()));
    assert_eq!(vjt(&["show"], &file).as_deref(), Ok(&b"name \"L4\" records 3: W0 S R0 E\n"[..]));
}

#[test]
fn a_wrong_text_is_told() {
    let wrong = |input: &[u8]| vjt(&["pack"], input).expect_err("a complaint");
    let (code, told) = wrong(b"S\nQ");
    assert!(code == Some(1) && told.starts_with("vjt: line 2, column 1, `Q`: is no event"), "{told}");
    let (code, told) = wrong(b"\xFF");
    assert!(code == Some(1) && told.starts_with("vjt: the text is no UTF-8"), "{told}");
}

#[test]
fn a_wrong_command_line_is_told_with_the_usage() {
    let lines: [(&[&str], &str); 6] = [
        (&["pack", "--records", "many"], "vjt: --records many: no whole number"),
        (&["pack", "--records"], "vjt: --records needs a value\n"),
        (&["pack", "--label", "L4"], "vjt: --label: no such option\n"),
        (&["show", "--name", "L4"], "vjt: --name: no such option\n"),
        (&["unpack"], "vjt: unpack: no such command\n"),
        (&[], "vjt: no command\n"),
    ];
    for (arguments, complaint) in lines {
        let (code, told) = vjt(arguments, b"").expect_err("a complaint");
        assert_eq!(code, Some(2), "{arguments:?}");
        assert!(told.starts_with(complaint) && told.contains("\nusage: vjt pack"), "{told}");
    }
}
