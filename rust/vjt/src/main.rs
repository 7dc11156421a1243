//! The tool: `vjt pack` makes a job file of a text, `vjt show` a text of a job file, from standard input to standard output.

use arguments::{Arguments, Wrong};
use std::error::Error;
use std::io::{self, Read, Write};
use std::process::ExitCode;
use vjt::Options;

const USAGE: &str = "usage: vjt pack [--name NAME] [--records COUNT] < text > file\n       vjt show < file > text";

enum Command {
    Pack(Options),
    Show,
}

fn main() -> ExitCode {
    let command = match arguments::read("vjt", USAGE, command) {
        Ok(command) => command,
        Err(code) => return code,
    };
    match run(command) {
        Ok(()) => ExitCode::SUCCESS,
        Err(wrong) => {
            eprintln!("vjt: {wrong}");
            ExitCode::FAILURE
        }
    }
}

fn command(arguments: &mut Arguments) -> Result<Command, Wrong> {
    let word = arguments.next().ok_or_else(|| Wrong::new("no command"))?;
    match word.as_str() {
        "pack" => Ok(Command::Pack(options(arguments)?)),
        "show" => match arguments.next() {
            None => Ok(Command::Show),
            Some(argument) => Err(Wrong::unknown(&argument)),
        },
        _ => Err(Wrong::new(format!("{word}: no such command"))),
    }
}

fn options(arguments: &mut Arguments) -> Result<Options, Wrong> {
    let mut options = Options::default();
    while let Some(option) = arguments.next() {
        match option.as_str() {
            "--name" => options.name = Some(arguments.value(&option)?.into_bytes()),
            "--records" => options.records = Some(arguments.number(&option)?),
            _ => return Err(Wrong::unknown(&option)),
        }
    }
    Ok(options)
}

fn run(command: Command) -> Result<(), Box<dyn Error>> {
    let mut input = Vec::new();
    io::stdin().read_to_end(&mut input).map_err(|wrong| format!("reading: {wrong}"))?;
    let made = match command {
        Command::Pack(options) => {
            let text = String::from_utf8(input).map_err(|wrong| format!("the text is no UTF-8: {wrong}"))?;
            vjt::pack_with(&text, options)?
        }
        Command::Show => vjt::show(&input).into_bytes(),
    };
    Ok(io::stdout().write_all(&made).map_err(|wrong| format!("writing: {wrong}"))?)
}
