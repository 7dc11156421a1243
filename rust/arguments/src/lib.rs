//! The command line of a tool: its arguments one by one, and what is said on standard error if they are wrong.

use std::fmt;
use std::process::ExitCode;
use std::str::FromStr;

/// What is wrong with a command line.
#[derive(Clone, Debug, PartialEq, Eq)]
pub struct Wrong(String);

impl Wrong {
    pub fn new(wrong: impl Into<String>) -> Wrong {
        Wrong(wrong.into())
    }

    /// An argument that the tool does not know.
    pub fn unknown(argument: &str) -> Wrong {
        Wrong(format!("{argument}: no such option"))
    }
}

impl fmt::Display for Wrong {
    fn fmt(&self, f: &mut fmt::Formatter<'_>) -> fmt::Result {
        f.write_str(&self.0)
    }
}

impl std::error::Error for Wrong {}

/// The arguments that are still to be taken.
pub struct Arguments(std::vec::IntoIter<String>);

impl Iterator for Arguments {
    type Item = String;

    fn next(&mut self) -> Option<String> {
        self.0.next()
    }
}

impl Arguments {
    /// Those of this process, without its own name.
    fn of_process() -> Result<Arguments, Wrong> {
        let text = |word: std::ffi::OsString| word.into_string().map_err(|word| Wrong(format!("{word:?}: no UTF-8")));
        let words = std::env::args_os().skip(1).map(text).collect::<Result<Vec<String>, Wrong>>()?;
        Ok(Arguments(words.into_iter()))
    }

    /// The value of an option that was just taken: the next argument, whatever it is.
    pub fn value(&mut self, option: &str) -> Result<String, Wrong> {
        self.next().ok_or_else(|| Wrong(format!("{option} needs a value")))
    }

    /// The value of an option that takes a number.
    pub fn number<N: FromStr>(&mut self, option: &str) -> Result<N, Wrong> {
        let value = self.value(option)?;
        value.parse().map_err(|_| Wrong(format!("{option} {value}: no whole number, or too large")))
    }
}

/// What `options` makes of the command line of this process. If that is wrong, says why, with the usage; the exit code is then 2.
pub fn read<T>(
    tool: &str,
    usage: &str,
    options: impl FnOnce(&mut Arguments) -> Result<T, Wrong>,
) -> Result<T, ExitCode> {
    Arguments::of_process().and_then(|mut arguments| options(&mut arguments)).map_err(|wrong| {
        eprintln!("{tool}: {wrong}\n{usage}");
        ExitCode::from(2)
    })
}

#[cfg(test)]
mod tests {
    use super::*;

    fn arguments(words: &[&str]) -> Arguments {
        Arguments(words.iter().map(|word| word.to_string()).collect::<Vec<_>>().into_iter())
    }

    #[test]
    fn options_are_taken_with_their_values() {
        let mut given = arguments(&["--name", "--count", "--count", "7"]);
        assert_eq!(given.next().as_deref(), Some("--name"));
        assert_eq!(given.value("--name").as_deref(), Ok("--count"));
        assert_eq!(given.next().as_deref(), Some("--count"));
        assert_eq!(given.number("--count"), Ok(7));
        assert_eq!(given.next(), None);
    }

    #[test]
    fn a_value_that_is_missing_or_no_number_is_told() {
        let wrong = |words: &[&str]| arguments(words).number::<u8>("--count").expect_err("wrong").to_string();
        assert_eq!(wrong(&[]), "--count needs a value");
        assert_eq!(wrong(&["many"]), "--count many: no whole number, or too large");
        assert_eq!(wrong(&["256"]), "--count 256: no whole number, or too large");
        assert_eq!(wrong(&["-1"]), "--count -1: no whole number, or too large");
        assert_eq!(Wrong::unknown("--label").to_string(), "--label: no such option");
    }
}
