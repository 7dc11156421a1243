//! The tool from the command line: what is wrong is told on standard error, with the usage.

use std::process::Command;

#[test]
fn a_wrong_command_line_is_told_with_the_usage() {
    let lines: [(&[&str], &str); 4] = [
        (&["--jobs"], "bench: --jobs needs a value\n"),
        (&["--jobs", "few"], "bench: --jobs few: no whole number"),
        (&["--label", "L4"], "bench: --label: no such option\n"),
        (&["--short", "--quiet"], "bench: --quiet: no such option\n"),
    ];
    for (arguments, complaint) in lines {
        let output = Command::new(env!("CARGO_BIN_EXE_bench")).args(arguments).output().expect("the tool starts");
        let told = String::from_utf8_lossy(&output.stderr);
        assert_eq!(output.status.code(), Some(2), "{arguments:?}");
        assert!(output.stdout.is_empty() && told.starts_with(complaint) && told.contains("\nusage: bench "), "{told}");
    }
}
