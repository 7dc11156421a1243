//! A C program over include/razombiku.h, compiled, linked with the static library and run.
#![cfg(feature = "rattle")]

use std::path::Path;
use std::process::Command;

/// What `calls.c` prints; the labels and the first race are those of the rules' whole file.
const PRINTED: &str = "write 0 0 50
read 0 0 2 2 32 2
question 0 0 3
judge 0 0 1 3 6 1 3 3 3
english 9223372036854775808 13835058055282163711 16140901064495857663
hebrew of 2 11529215046068469759
too many events 15 0 0 0 0 0 0 0 0
judge 0 0 1 1 4 1 3 3 3
every record 0 0 2 3 3 3
record 0 first 2 second 5
record 1 first 1 second 4
every record 0 0 1 3 3 3
record 1 first 1 second 4
every record 16 0 0 0 0 0
";

#[test]
fn c_program_over_the_header() {
    let here = Path::new(env!("CARGO_MANIFEST_DIR"));
    let program = Path::new(env!("CARGO_TARGET_TMPDIR")).join("calls");
    let compiled = Command::new("cc")
        .args(["-std=c99", "-pedantic", "-Wall", "-Wextra", "-Werror", "-I"])
        .arg(here.join("../../include"))
        .arg(here.join("tests/calls.c"))
        .arg(here.join("../../crates/exports/out/libexports.a"))
        .arg("-o")
        .arg(&program)
        .status()
        .expect("cc, which cargo links by");
    assert!(compiled.success());
    let run = Command::new(&program).output().expect("the compiled program");
    assert_eq!(String::from_utf8_lossy(&run.stdout), PRINTED);
    assert!(run.status.success());
}
