//! The comparison from the command line; the seed and the count say which files, the tally at the end says what they were.

use arguments::{Arguments, Wrong};
use compare::calls::{Calls, Second};
use compare::differ::Sides;
use compare::files::{generated, limits};
use compare::program::{self, Lines};
use compare::random::Random;
use compare::shrink::shrink;
use compare::tally::Tally;
use std::path::PathBuf;
use std::process::ExitCode;
use std::time::{Duration, Instant};

const USAGE: &str = "usage: compare [--seed N] [--first N] [--count N] [--judge PATH] [--records PATH]
  --seed N        which files are made (1)
  --first N       the number of the first generated file (0)
  --count N       how many files are generated, after those at the limits (2000)
  --judge PATH    also runs this program on each file and compares its line
  --records PATH  also runs this program on each file and compares its lines
Built without the feature `rattle`, only programs are compared, and --judge or --records must be given.";

struct Options {
    seed: u64,
    first: u64,
    count: u64,
    judge: Option<PathBuf>,
    records: Option<PathBuf>,
}

fn main() -> ExitCode {
    let options = match arguments::read("compare", USAGE, options) {
        Ok(options) => options,
        Err(code) => return code,
    };
    match run(&options) {
        Ok(true) => ExitCode::SUCCESS,
        Ok(false) => ExitCode::FAILURE,
        Err(wrong) => {
            eprintln!("compare: {wrong}");
            ExitCode::from(2)
        }
    }
}

fn options(arguments: &mut Arguments) -> Result<Options, Wrong> {
    let mut options = Options { seed: 1, first: 0, count: 2000, judge: None, records: None };
    while let Some(option) = arguments.next() {
        match option.as_str() {
            "--seed" => options.seed = arguments.number(&option)?,
            "--first" => options.first = arguments.number(&option)?,
            "--count" => options.count = arguments.number(&option)?,
            "--judge" => options.judge = Some(PathBuf::from(arguments.value(&option)?)),
            "--records" => options.records = Some(PathBuf::from(arguments.value(&option)?)),
            _ => return Err(Wrong::unknown(&option)),
        }
    }
    if library().is_none() && options.judge.is_none() && options.records.is_none() {
        return Err(Wrong::new("nothing to compare with"));
    }
    Ok(options)
}

#[cfg(feature = "rattle")]
fn library() -> Option<&'static dyn Calls> {
    Some(&compare::ffi::Library)
}

#[cfg(not(feature = "rattle"))]
fn library() -> Option<&'static dyn Calls> {
    None
}

/// Compares all the files, and says whether nothing differed.
fn run(options: &Options) -> Result<bool, String> {
    println!("seed {} first {} count {}", options.seed, options.first, options.count);
    let mut compared = Compared { options, library: library(), tally: Tally::default() };
    for (number, (what, file)) in limits().into_iter().enumerate() {
        if !compared.agree(&format!("limit `{what}`"), number as u64, &file)? {
            return Ok(false);
        }
    }
    let mut told = Instant::now();
    for number in options.first..options.first + options.count {
        if !compared.agree(&format!("file {number}"), number, &generated(options.seed, number))? {
            return Ok(false);
        }
        if told.elapsed() > Duration::from_secs(2) {
            told = Instant::now();
            eprint!("\rcompare: seed {}, {} of {} files", options.seed, number + 1 - options.first, options.count);
        }
    }
    eprintln!("\rcompare: seed {}, all {} files agree", options.seed, compared.tally.files);
    print!("{}", compared.tally);
    Ok(true)
}

struct Compared<'a> {
    options: &'a Options,
    library: Option<&'static dyn Calls>,
    tally: Tally,
}

impl Compared<'_> {
    /// Whether all sides agree on a file; if not, says how, with the file and a smaller one in the text form.
    fn agree(&mut self, what: &str, number: u64, file: &[u8]) -> Result<bool, String> {
        let Some(difference) = self.difference(number, file)? else { return Ok(true) };
        eprintln!();
        println!("{what} of seed {} (second program first): {difference}\n{}", self.options.seed, vjt::show(file));
        let small = shrink(file, |file| matches!(self.difference(number, file), Ok(Some(_))));
        if let Some(difference) = self.difference(number, &small)? {
            println!("smaller: {difference}\n{}", vjt::show(&small));
        }
        Ok(false)
    }

    fn difference(&mut self, number: u64, file: &[u8]) -> Result<Option<String>, String> {
        let mut found = None;
        if let Some(library) = self.library {
            let mut sides = Sides { one: &Second, other: library, tally: std::mem::take(&mut self.tally) };
            found = sides.difference(&mut Random::of_file(self.options.seed, number), file);
            self.tally = sides.tally;
        } else {
            self.tally.files += 1;
        }
        let programs: [(&Option<PathBuf>, Lines); 2] =
            [(&self.options.judge, second::line), (&self.options.records, second::lines)];
        for (runs, (path, lines)) in self.tally.programs.iter_mut().zip(programs) {
            if let (None, Some(path)) = (&found, path) {
                *runs += 1;
                let difference = program::difference(path, file, lines);
                found = difference.map_err(|wrong| format!("{}: {wrong}", path.display()))?;
            }
        }
        Ok(found)
    }
}
