//! Reads the small part of TOML that the file of commands is written in. Each such file is a TOML document, and means the same.
//!
//! There are comments, tables (`[web]`, `["a.b"]` for a name with a dot, `[template.web]`), and above and in them keys with a value: a string
//! (`"basic"` with escapes or `'literal'`, both on one line), a whole number, `true`, `false`, or an array of strings that
//! may run over several lines. Nothing else of TOML is read; each refusal names its line and what to write instead.

use std::fmt;
use std::rc::Rc;

/// Where something stands.
#[derive(Clone, Debug, PartialEq, Eq)]
pub struct Place {
    /// The file, as it was named.
    pub file: Rc<str>,
    /// The line, from 1.
    pub line: usize,
}

impl fmt::Display for Place {
    fn fmt(&self, f: &mut fmt::Formatter<'_>) -> fmt::Result {
        write!(f, "{}:{}", self.file, self.line)
    }
}

/// What stands in a file.
#[derive(Clone, Debug, Default, PartialEq, Eq)]
pub struct Document {
    /// The keys above the first head.
    pub top: Vec<Entry>,
    /// The tables.
    pub tables: Vec<Table>,
}

/// A table of the file, with its values in the order of the file.
#[derive(Clone, Debug, PartialEq, Eq)]
pub struct Table {
    /// Its name.
    pub name: String,
    /// The line of its head.
    pub place: Place,
    /// What stands in it.
    pub entries: Vec<Entry>,
    /// It is one that others take keys from: `[template.NAME]`.
    pub is_template: bool,
    /// The name of the instance that it is of.
    pub instance: Option<String>,
}

impl Table {
    /// Takes a key out.
    pub fn take(&mut self, key: &str) -> Option<Entry> {
        let at = self.entries.iter().position(|entry| entry.key == key)?;
        Some(self.entries.remove(at))
    }
}

/// A key with its value.
#[derive(Clone, Debug, PartialEq, Eq)]
pub struct Entry {
    /// The key.
    pub key: String,
    /// The line that it stands on.
    pub place: Place,
    /// The value.
    pub value: Value,
}

impl Entry {
    /// This entry of an instance, whose name stands for `{i}`.
    pub fn with_instance(self, instance: Option<&str>) -> Self {
        match instance {
            Some(name) => Entry { value: self.value.with_instance(name), ..self },
            None => self,
        }
    }
}

/// A value.
#[derive(Clone, Debug, PartialEq, Eq)]
pub enum Value {
    /// A string.
    Text(String),
    /// A whole number.
    Number(i64),
    /// A truth value.
    Truth(bool),
    /// An array of strings.
    Texts(Vec<String>),
}

impl Value {
    /// This value where `{i}` in a string is the name of an instance.
    pub fn with_instance(&self, name: &str) -> Self {
        match self {
            Value::Text(text) => Value::Text(text.replace("{i}", name)),
            Value::Texts(texts) => Value::Texts(texts.iter().map(|text| text.replace("{i}", name)).collect()),
            other => other.clone(),
        }
    }
}

/// What is wrong, and on which line.
#[derive(Clone, Debug, PartialEq, Eq)]
pub struct BadLine {
    /// The line.
    pub place: Place,
    /// What is wrong, and what to write.
    pub text: String,
}

impl BadLine {
    /// Something is wrong there.
    pub fn new(place: &Place, text: impl Into<String>) -> Self {
        BadLine { place: place.clone(), text: text.into() }
    }
}

impl fmt::Display for BadLine {
    fn fmt(&self, f: &mut fmt::Formatter<'_>) -> fmt::Result {
        write!(f, "{}: {}", self.place, self.text)
    }
}

impl std::error::Error for BadLine {}

/// What stands in a file with this name.
pub fn read(file: &str, text: &str) -> Result<Document, BadLine> {
    read_from(&file.into(), 1, text)
}

/// Reads a text that stands in a file from this line on.
pub fn read_from(file: &Rc<str>, line: usize, text: &str) -> Result<Document, BadLine> {
    let mut reader = Reader { rest: text, file: file.clone(), line };
    let mut read = Document::default();
    loop {
        reader.skip_blank();
        let place = reader.place();
        match reader.peek() {
            None => return Ok(read),
            Some('[') => {
                let (name, is_template) = reader.head()?;
                if read.tables.iter().any(|table| table.name == name && table.is_template == is_template) {
                    return Err(BadLine::new(&place, format!("the table [{name}] is there already; join the two")));
                }
                read.tables.push(Table { name, place, entries: Vec::new(), is_template, instance: None });
            }
            Some(_) => {
                let entry = reader.entry()?;
                let entries = read.tables.last_mut().map_or(&mut read.top, |table| &mut table.entries);
                if entries.iter().any(|other| other.key == entry.key) {
                    return Err(BadLine::new(&place, format!("the key {} is there already; drop one", entry.key)));
                }
                entries.push(entry);
            }
        }
        reader.end_of_line()?;
    }
}

struct Reader<'a> {
    rest: &'a str,
    file: Rc<str>,
    line: usize,
}

impl Reader<'_> {
    fn peek(&self) -> Option<char> {
        self.rest.chars().next()
    }

    fn take(&mut self) -> Option<char> {
        let first = self.peek()?;
        self.rest = &self.rest[first.len_utf8()..];
        if first == '\n' {
            self.line += 1;
        }
        Some(first)
    }

    fn takes(&mut self, wanted: char) -> bool {
        let is_there = self.peek() == Some(wanted);
        if is_there {
            self.take();
        }
        is_there
    }

    fn place(&self) -> Place {
        Place { file: self.file.clone(), line: self.line }
    }

    fn bad(&self, text: impl Into<String>) -> BadLine {
        BadLine { place: self.place(), text: text.into() }
    }

    /// Passes over spaces and tabs.
    fn skip_space(&mut self) {
        self.rest = self.rest.trim_start_matches([' ', '\t']);
    }

    fn skip_comment(&mut self) {
        if self.peek() == Some('#') {
            let end = self.rest.find('\n').unwrap_or(self.rest.len());
            self.rest = &self.rest[end..];
        }
    }

    /// Passes over spaces, comments and the ends of lines.
    fn skip_blank(&mut self) {
        loop {
            self.skip_space();
            self.skip_comment();
            match self.peek() {
                Some('\n') => drop(self.take()),
                Some('\r') if self.rest.starts_with("\r\n") => drop(self.take()),
                _ => return,
            }
        }
    }

    /// Nothing more may stand on this line.
    fn end_of_line(&mut self) -> Result<(), BadLine> {
        self.skip_space();
        self.skip_comment();
        if self.rest.starts_with("\r\n") {
            self.take();
        }
        match self.peek() {
            None => Ok(()),
            Some('\n') => {
                self.take();
                Ok(())
            }
            Some(other) => Err(self
                .bad(format!("{other:?} stands behind the value; begin a new line, or write # in front of a comment"))),
        }
    }

    /// The name between brackets, and whether it is that of a template.
    fn head(&mut self) -> Result<(String, bool), BadLine> {
        self.take();
        if self.peek() == Some('[') {
            return Err(
                self.bad("[[ begins an array of tables, which is not read here; write [NAME] once for each start word")
            );
        }
        self.skip_space();
        let mut name = self.name()?;
        let is_template = name == "template" && self.takes('.');
        if is_template {
            name = self.name()?;
        }
        self.skip_space();
        if self.takes(']') && !name.is_empty() {
            return Ok((name, is_template));
        }
        Err(self.bad("a head is [NAME]; a name with a dot is written [\"a.b\"]"))
    }

    /// A name of a head, in quotes or without.
    fn name(&mut self) -> Result<String, BadLine> {
        match self.peek() {
            Some('"' | '\'') => self.string(),
            _ => Ok(self.word()),
        }
    }

    /// The letters, digits, `_` and `-` that come next.
    fn word(&mut self) -> String {
        let is_of_word = |c: char| c.is_ascii_alphanumeric() || c == '_' || c == '-';
        let end = self.rest.find(|c| !is_of_word(c)).unwrap_or(self.rest.len());
        let (word, rest) = self.rest.split_at(end);
        self.rest = rest;
        word.to_string()
    }

    fn entry(&mut self) -> Result<Entry, BadLine> {
        let place = self.place();
        let key = self.word();
        self.skip_space();
        if key.is_empty() || !self.takes('=') {
            return Err(self.bad("a line is KEY = VALUE, [NAME] or a comment; keys have no quotes and no dots"));
        }
        self.skip_space();
        let value = self.value()?;
        Ok(Entry { key, place, value })
    }

    fn value(&mut self) -> Result<Value, BadLine> {
        match self.peek() {
            Some('"' | '\'') => self.string().map(Value::Text),
            Some('[') => self.array().map(Value::Texts),
            Some(c) if c.is_ascii_alphanumeric() || c == '-' => self.plain(),
            _ => Err(self.bad("a value is a string in quotes, a whole number, true, false, or an array of strings")),
        }
    }

    fn plain(&mut self) -> Result<Value, BadLine> {
        let word = self.word();
        match word.as_str() {
            "true" => return Ok(Value::Truth(true)),
            "false" => return Ok(Value::Truth(false)),
            _ => {}
        }
        let digits = word.strip_prefix('-').unwrap_or(&word);
        let is_plain = digits.bytes().all(|b| b.is_ascii_digit()) && (digits == "0" || !digits.starts_with('0'));
        match word.parse() {
            Ok(number) if is_plain => Ok(Value::Number(number)),
            _ => Err(self.bad(format!("{word} is no value; a text stands in quotes, a number has digits alone"))),
        }
    }

    fn array(&mut self) -> Result<Vec<String>, BadLine> {
        let begun = self.place();
        self.take();
        let mut texts = Vec::new();
        loop {
            self.skip_blank();
            match self.peek() {
                Some(']') => break,
                Some('"' | '\'') => texts.push(self.string()?),
                None => {
                    return Err(BadLine::new(&begun, "the array has no end; write ] behind its last string"));
                }
                Some(_) => {
                    return Err(self.bad("an array has strings in quotes alone, with commas between them"));
                }
            }
            self.skip_blank();
            if !self.takes(',') && self.peek() != Some(']') {
                return Err(self.bad("a comma or ] is missing behind the string"));
            }
        }
        self.take();
        Ok(texts)
    }

    fn string(&mut self) -> Result<String, BadLine> {
        if self.rest.starts_with("\"\"\"") || self.rest.starts_with("'''") {
            return Err(
                self.bad("strings over several lines are not read here; write \\n in a string in double quotes")
            );
        }
        let Some(quote) = self.take() else {
            return Ok(String::new());
        };
        let mut text = String::new();
        loop {
            match self.peek() {
                Some(c) if c == quote => {
                    self.take();
                    return Ok(text);
                }
                Some('\\') if quote == '"' => {
                    self.take();
                    text.push(self.escape()?);
                }
                None | Some('\n') => {
                    return Err(self.bad(format!("the string has no end; write {quote} behind it")));
                }
                Some(c) if c.is_control() && c != '\t' => {
                    return Err(
                        self.bad("a control character stands in a string; write it as \\uXXXX in double quotes")
                    );
                }
                Some(c) => {
                    self.take();
                    text.push(c);
                }
            }
        }
    }

    fn escape(&mut self) -> Result<char, BadLine> {
        let meant = match self.peek() {
            Some('"') => '"',
            Some('\\') => '\\',
            Some('n') => '\n',
            Some('t') => '\t',
            Some('r') => '\r',
            Some('b') => '\u{8}',
            Some('f') => '\u{c}',
            Some('u') => return self.code_point(4),
            Some('U') => return self.code_point(8),
            _ => {
                return Err(self.bad(
                    "escapes are \\\" \\\\ \\n \\t \\r \\b \\f \\uXXXX \\UXXXXXXXX; in single quotes none is needed",
                ));
            }
        };
        self.take();
        Ok(meant)
    }

    /// The character of so many hexadecimal digits behind a letter.
    fn code_point(&mut self, digits: usize) -> Result<char, BadLine> {
        self.take();
        let code = self.rest.get(..digits).filter(|code| code.bytes().all(|b| b.is_ascii_hexdigit()));
        let found = code.and_then(|code| u32::from_str_radix(code, 16).ok()).and_then(char::from_u32);
        let Some(found) = found else {
            return Err(self.bad(format!("behind this escape stand {digits} hexadecimal digits of a character")));
        };
        self.rest = &self.rest[digits..];
        Ok(found)
    }
}

#[cfg(test)]
mod tests {
    use super::*;

    #[test]
    fn a_file_is_read() {
        let text = "# first\n[web] # head\ncommand = [ \"a\", # one\n 'b\\',\r\n]\nn = 10\nt = true\n\n[\"a.b\"]\ns = \"x\\n\\u00e9\"\n";
        let tables = read("f", text).unwrap().tables;
        assert_eq!(tables.len(), 2);
        assert_eq!((tables[0].name.as_str(), tables[0].place.line), ("web", 2));
        assert_eq!(tables[0].entries[0].value, Value::Texts(vec!["a".into(), "b\\".into()]));
        assert_eq!((tables[0].entries[1].place.line, &tables[0].entries[1].value), (6, &Value::Number(10)));
        assert_eq!(tables[0].entries[2].value, Value::Truth(true));
        assert_eq!(tables[1].name, "a.b");
        assert_eq!(tables[1].entries[0].value, Value::Text("x\né".into()));
        assert_eq!(read("f", "[a]\nn = -5").unwrap().tables[0].entries[0].value, Value::Number(-5));
        assert_eq!(read("f", ""), Ok(Document::default()));
        let read_one = read("f", "x = 1\n[template.a]\n[a]\n").unwrap();
        assert_eq!(
            (read_one.top.len(), read_one.tables[0].is_template, read_one.tables[1].is_template),
            (1, true, false)
        );
        assert_eq!(read("f", "[a]").map(|read| read.tables.len()), Ok(1));
    }

    #[test]
    fn each_fault_names_its_line() {
        for (text, line) in [
            ("a = 1\na = 2", 2),
            ("\n[a]\n[a]", 3),
            ("[a]\nb = 1\nb = 2", 3),
            ("[a]\nb = 01", 2),
            ("[a]\nb = 1.5", 2),
            ("[a]\nb = --1", 2),
            ("[a]\nb = -", 2),
            ("[a]\nb = -01", 2),
            ("[a]\nb = x", 2),
            ("[a]\nb = \"x", 2),
            ("[a]\nb = \"\\q\"", 2),
            ("[a]\nb = \"\\ud800\"", 2),
            ("[a]\nb = \"\\u12\"", 2),
            ("[a]\nb = \"\"\"x\"\"\"", 2),
            ("[a]\nb = [\"x\" \"y\"]", 2),
            ("[a]\nb = [1]", 2),
            ("[a]\n\nb = [\"x\",\n", 3),
            ("[a]\nb = \"x\" y", 2),
            ("[a]\nb.c = 1", 2),
            ("[a]\n\"b\" = 1", 2),
            ("[a]\nb", 2),
            ("[a]\nb =", 2),
            ("[[a]]", 1),
            ("[a.b]", 1),
            ("[]", 1),
            ("[a", 1),
            ("[a]\nb = 99999999999999999999", 2),
            ("[a]\nb = {}", 2),
        ] {
            assert_eq!(read("f", text).map_err(|e| e.place.line), Err(line), "{text}");
        }
    }

    #[test]
    fn no_text_makes_it_panic() {
        let mut seed = 1u64;
        let bytes = b"[]=\"'\\#,\n\r abu01-.\xc3\xa9";
        for _ in 0..20_000 {
            let mut text = Vec::new();
            for _ in 0..40 {
                seed = seed.wrapping_mul(6_364_136_223_846_793_005).wrapping_add(1_442_695_040_888_963_407);
                text.push(bytes[(seed >> 33) as usize % bytes.len()]);
            }
            let _ = read("f", &String::from_utf8_lossy(&text));
        }
    }
}
