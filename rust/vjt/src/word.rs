//! The words of a text, each with the place where it stands, and the error that names it.

use std::fmt;

/// What is wrong with a text, and at which word.
#[derive(Clone, Debug, PartialEq, Eq)]
pub struct Error {
    pub line: usize,
    pub column: usize,
    pub word: String,
    pub wrong: String,
}

impl fmt::Display for Error {
    fn fmt(&self, f: &mut fmt::Formatter<'_>) -> fmt::Result {
        write!(f, "line {}, column {}, `{}`: {}", self.line, self.column, self.word, self.wrong)
    }
}

impl std::error::Error for Error {}

/// A word: a run of letters, a colon, or a quoted text with its quotes.
#[derive(Clone, Debug)]
pub struct Word<'a> {
    pub text: &'a str,
    line: usize,
    column: usize,
}

impl Word<'_> {
    pub fn error(&self, wrong: impl Into<String>) -> Error {
        Error { line: self.line, column: self.column, word: self.text.to_string(), wrong: wrong.into() }
    }

    pub fn is_quoted(&self) -> bool {
        self.text.starts_with('"')
    }

    /// The bytes of a quoted text.
    pub fn unquoted(&self) -> Result<Vec<u8>, Error> {
        let inner = self.text.strip_prefix('"').and_then(|rest| rest.strip_suffix('"'));
        let inner = inner.ok_or_else(|| self.error("a text in quotes is due"))?;
        let mut bytes = Vec::new();
        let mut rest = inner;
        while let Some((byte, after)) = self.first_byte(rest)? {
            bytes.push(byte);
            rest = after;
        }
        Ok(bytes)
    }

    /// The first byte that a quoted text stands for, and the rest of the text.
    fn first_byte<'t>(&self, text: &'t str) -> Result<Option<(u8, &'t str)>, Error> {
        let Some(letter) = text.chars().next() else { return Ok(None) };
        let after = &text[letter.len_utf8()..];
        if letter != '\\' {
            let byte = u8::try_from(letter).ok().filter(u8::is_ascii);
            return match byte {
                Some(byte) => Ok(Some((byte, after))),
                None => Err(self.error(format!("`{letter}` is not ASCII; write its bytes as \\x00 to \\xFF"))),
            };
        }
        let quoted = after.strip_prefix('"').map(|rest| (b'"', rest));
        let slash = after.strip_prefix('\\').map(|rest| (b'\\', rest));
        let hex = after.strip_prefix('x').and_then(|rest| Some((hex_byte(rest.get(..2)?)?, &rest[2..])));
        match quoted.or(slash).or(hex) {
            Some(found) => Ok(Some(found)),
            None => Err(self.error("after a \\ only \", \\ or x and two hex digits can stand")),
        }
    }
}

/// The byte of two hex digits.
pub fn hex_byte(digits: &str) -> Option<u8> {
    let is_pair = digits.len() == 2 && digits.bytes().all(|digit| digit.is_ascii_hexdigit());
    u8::from_str_radix(digits, 16).ok().filter(|_| is_pair)
}

/// The words of a text.
pub fn words(text: &str) -> Result<Vec<Word<'_>>, Error> {
    let mut found = Vec::new();
    for (number, line) in text.lines().enumerate() {
        let mut at = 0;
        while let Some(start) = line[at..].find(|letter: char| !letter.is_whitespace()) {
            let length = length_of_first(&line[at + start..]);
            let column = line[..at + start].chars().count() + 1;
            let word = Word { text: &line[at + start..at + start + length], line: number + 1, column };
            if word.is_quoted() && (length == 1 || !word.text.ends_with('"')) {
                return Err(word.error("the closing quote is missing"));
            }
            found.push(word);
            at += start + length;
        }
    }
    Ok(found)
}

/// How many bytes the word at the front of a line has.
fn length_of_first(line: &str) -> usize {
    if line.starts_with(':') {
        return 1;
    }
    if !line.starts_with('"') {
        let ends = |letter: char| letter.is_whitespace() || letter == ':' || letter == '"';
        return line.find(ends).unwrap_or(line.len());
    }
    let mut escaped = false;
    for (at, letter) in line.char_indices().skip(1) {
        if letter == '"' && !escaped {
            return at + 1;
        }
        escaped = letter == '\\' && !escaped;
    }
    line.len()
}
