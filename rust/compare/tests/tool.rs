//! The tool from the command line: what is wrong is told on standard error, with the usage.

use std::process::Command;

#[test]
fn a_wrong_command_line_is_told_with_the_usage() {
    let lines: [(&[&str], &str); 5] = [
        (&["--seed"], "compare: --seed needs a value\n"),
        (&["--seed", "few"], "compare: --seed few: no whole number"),
        (&["--label", "L4"], "compare: --label: no such option\n"),
        (&["--judge"], "compare: --judge needs a value\n"),
        (&["--records"], "compare: --records needs a value\n"),
    ];
    for (arguments, complaint) in lines {
        let output = Command::new(env!("CARGO_BIN_EXE_compare")).args(arguments).output().expect("the tool starts");
        let told = String::from_utf8_lossy(&output.stderr);
        assert_eq!(output.status.code(), Some(2), "{arguments:?}");
        assert!(
            output.stdout.is_empty() && told.starts_with(complaint) && told.contains("\nusage: compare "),
            "{told}"
        );
    }
}
