//! What a reader must believe: the definitions that the demands and the contracts of the public functions reach, held against the lists
//! of docs/BELIEVED.md. Text is read and nothing is proved: the prover sees to it that names mean what the `use` lines say.

pub mod antt;
pub mod closure;
pub mod document;
pub mod names;
pub mod rattle;
pub mod report;
pub mod words;

/// A definition by the file that it stands in, below `crates/`, and its name.
#[derive(Clone, Debug, PartialEq, Eq, PartialOrd, Ord)]
pub struct Key {
    pub file: String,
    pub name: String,
}

impl Key {
    pub fn new(file: &str, name: &str) -> Key {
        Key { file: file.to_string(), name: name.to_string() }
    }
}

#[derive(Clone, Copy, Debug, PartialEq, Eq)]
pub enum Kind {
    /// A definition of antt, or a type that the code declares.
    Definition,
    /// What has a statement, and a proof that nobody needs to read.
    Theorem,
    /// A public function that asks nothing of its caller, or a law or ghost field, and a function that does.
    Call,
    Step,
}

/// A clause of a definition: the words of its patterns, which bind or are constructors, and those of what it is.
#[derive(Debug, Default)]
pub struct Clause {
    pub patterns: Vec<String>,
    pub words: Vec<String>,
}

/// What a file defines.
#[derive(Debug)]
pub struct Item {
    pub name: String,
    pub kind: Kind,
    /// What the comment above it says.
    pub said: String,
    /// Its first line, then a line for each clause, field or constructor.
    pub text: Vec<String>,
    /// The words of its type, of a record's fields, of a call's promises.
    pub statement: Vec<String>,
    pub clauses: Vec<Clause>,
    /// Its constructors.
    pub makes: Vec<String>,
}

/// A line `use path.{name as local, ..}`, or `use path as local`, which has no names.
#[derive(Debug, Default, PartialEq)]
pub struct Use {
    pub path: Vec<String>,
    pub names: Vec<(String, String)>,
    pub alias: Option<String>,
}

#[derive(Debug, Default)]
pub struct Source {
    pub uses: Vec<Use>,
    pub items: Vec<Item>,
}

impl Source {
    pub fn item(&self, name: &str) -> Option<&Item> {
        self.items.iter().find(|item| item.name == name)
    }
}

/// Reads a file by its name. What specs/ defines is a definition, however it unfolds; elsewhere what does not unfold is a theorem.
pub fn source(file: &str, text: &str) -> Source {
    if file.ends_with(".rt") {
        return rattle::read(text);
    }
    let mut source = antt::read(text);
    if file.contains("/specs/") {
        source.items.iter_mut().for_each(|item| item.kind = Kind::Definition);
    }
    source
}
