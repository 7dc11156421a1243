//! The programs `judge` and `records`, run on a file, against the second program's line or lines.

use std::io::{self, Write};
use std::path::Path;
use std::process::{Command, Stdio};

/// What a program must print for a file: `second::line` or `second::lines`.
pub type Lines = fn(&[u8]) -> Vec<u8>;

/// What a program prints for a file that it must not, if anything.
pub fn difference(program: &Path, file: &[u8], lines: Lines) -> io::Result<Option<String>> {
    let (printed, due) = (printed(program, file)?, lines(file));
    if printed == due {
        return Ok(None);
    }
    let quoted = |bytes: &[u8]| String::from_utf8_lossy(bytes).into_owned();
    Ok(Some(format!("what {} prints: {:?} and {:?}", program.display(), quoted(&due), quoted(&printed))))
}

/// What a program prints with a file on its standard input. It need not read to the end.
fn printed(program: &Path, file: &[u8]) -> io::Result<Vec<u8>> {
    let mut child = Command::new(program).stdin(Stdio::piped()).stdout(Stdio::piped()).spawn()?;
    if let Some(mut input) = child.stdin.take() {
        match input.write_all(file) {
            Err(wrong) if wrong.kind() != io::ErrorKind::BrokenPipe => return Err(wrong),
            _ => {}
        }
    }
    Ok(child.wait_with_output()?.stdout)
}
