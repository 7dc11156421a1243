//! The tool: `believed ROOT` holds ROOT/docs/BELIEVED.md against ROOT/crates, and `believed --fill ROOT` makes its first list and its
//! vocabulary anew. It tells what is wrong and ends with 1 if anything is.

use believed::closure::closure;
use believed::names::Sources;
use believed::{document, report, source};
use std::fs;
use std::path::Path;
use std::process::ExitCode;

const DOCUMENT: &str = "docs/BELIEVED.md";

fn main() -> ExitCode {
    let arguments: Vec<String> = std::env::args().skip(1).collect();
    let told = match arguments.iter().map(String::as_str).collect::<Vec<_>>()[..] {
        ["--fill", root] => run(Path::new(root), true),
        [root] if !root.starts_with('-') => run(Path::new(root), false),
        _ => {
            eprintln!("usage: believed [--fill] ROOT");
            return ExitCode::from(2);
        }
    };
    match told {
        Ok(told) => {
            println!("{told}");
            ExitCode::SUCCESS
        }
        Err(wrong) => {
            eprintln!("{wrong}");
            ExitCode::FAILURE
        }
    }
}

fn run(root: &Path, fill: bool) -> Result<String, String> {
    let path = root.join(DOCUMENT);
    let mut text = fs::read_to_string(&path).map_err(|wrong| format!("{}: {wrong}", path.display()))?;
    let crates = crates(root)?;
    let mut sources = Sources::new();
    for name in &crates {
        read_folder(&root.join("crates").join(name), name, &mut sources)?;
    }
    let reached = |text: &str| {
        let document = document::read(text);
        let closure = closure(&sources, &document.roots, &document.tied_by());
        (document, closure)
    };
    if fill {
        text = document::filled(&text, &sources, &reached(&text).1, &crates);
        fs::write(&path, &text).map_err(|wrong| format!("{}: {wrong}", path.display()))?;
    }
    let (document, closure) = reached(&text);
    let faults = report::faults(&sources, &document, &closure, &crates);
    if !faults.is_empty() {
        return Err(format!("{DOCUMENT} is not right:\n{}", faults.join("\n")));
    }
    Ok(format!("{} definitions to be believed, {} tied by a theorem", document.believed.len(), document.tied.len()))
}

/// The crates in the order of crates.txt.
fn crates(root: &Path) -> Result<Vec<String>, String> {
    let path = root.join("crates.txt");
    let text = fs::read_to_string(&path).map_err(|wrong| format!("{}: {wrong}", path.display()))?;
    let name = |line: &str| {
        let head = line.split('#').next()?.split_once(':')?.0;
        // behind the name may stand what kind of crate it is
        head.split_whitespace().next().map(str::to_string)
    };
    Ok(text.lines().filter_map(name).collect())
}

/// Every file of code and of antt below a folder, but not the proofs of functions, which have folders in proofs/, nor what the toolchain
/// made, by its path below `crates/`.
fn read_folder(folder: &Path, below: &str, sources: &mut Sources) -> Result<(), String> {
    let wrong = |wrong: std::io::Error| format!("{}: {wrong}", folder.display());
    for found in fs::read_dir(folder).map_err(wrong)? {
        let path = found.map_err(wrong)?.path();
        let name = path.file_name().unwrap_or_default().to_string_lossy().into_owned();
        let file = format!("{below}/{name}");
        if path.is_dir() {
            if name != "out" && !below.ends_with("/proofs") {
                read_folder(&path, &file, sources)?;
            }
        } else if name.ends_with(".antt") || name.ends_with(".rt") {
            let text = fs::read_to_string(&path).map_err(|wrong| format!("{}: {wrong}", path.display()))?;
            sources.insert(file.clone(), source(&file, &text));
        }
    }
    Ok(())
}
