//! A tree file, or a file of commands, as lines: its heads and the keys below them, so that what belongs to the one or the other
//! can be told apart. Only files of the usual form are read so: heads such as `[[child]]`, and a key at the head of a line.

use std::rc::Rc;

use otp_supervision::brackets;

/// A line, and where it stands.
#[derive(Clone, Debug, PartialEq, Eq)]
pub struct Line {
    /// The file, as it was named.
    pub file: Rc<str>,
    /// The line, from 1.
    pub number: usize,
    /// What stands there.
    pub text: String,
}

/// The lines of a file.
pub fn lines_of(file: &str, text: &str) -> Vec<Line> {
    let file: Rc<str> = file.into();
    let lines = text.lines().enumerate();
    lines.map(|(index, text)| Line { file: file.clone(), number: index + 1, text: text.to_string() }).collect()
}

/// What a head begins.
#[derive(Clone, Debug, PartialEq, Eq)]
pub enum Kind {
    /// What stands above the first head.
    Top,
    /// A child, so many levels below the root's.
    Child(usize),
    /// The tree of a child of this level.
    Tree(usize),
    /// A template of this name.
    Template(String),
    /// Something else.
    Other,
}

/// A key with the lines that it stands on.
#[derive(Clone, Debug, PartialEq, Eq)]
pub struct Key {
    /// Its name.
    pub name: String,
    /// Its lines, by their places in the section.
    pub first: usize,
    /// Behind the last of them.
    pub end: usize,
}

/// A head with what stands below it.
#[derive(Clone, Debug, PartialEq, Eq)]
pub struct Section {
    /// What it is.
    pub kind: Kind,
    /// All its lines, the head's first.
    pub lines: Vec<Line>,
    /// Its keys.
    pub keys: Vec<Key>,
}

impl Section {
    /// The key of this name.
    pub fn key(&self, name: &str) -> Option<&Key> {
        self.keys.iter().find(|key| key.name == name)
    }

    /// The text of a key's value on its first line.
    pub fn value(&self, name: &str) -> Option<&str> {
        let key = self.key(name)?;
        self.lines[key.first].text.split_once('=').map(|(_, value)| value.trim())
    }

    /// A string on one line, without its quotes.
    pub fn string(&self, name: &str) -> Option<&str> {
        let value = self.value(name)?;
        let quote = value.chars().next().filter(|first| matches!(first, '"' | '\''))?;
        value[1..].split(quote).next()
    }
}

/// The sections of a file of the usual form; nothing of another.
pub fn sections_of(lines: &[Line]) -> Option<Vec<Section>> {
    if lines.iter().any(|line| line.text.contains("\"\"\"") || line.text.contains("'''")) {
        return None;
    }
    let mut sections = vec![Section { kind: Kind::Top, lines: Vec::new(), keys: Vec::new() }];
    let mut depth = 0;
    for line in lines {
        let text = line.text.trim();
        let is_inside = depth > 0;
        if !is_inside && text.starts_with('[') {
            sections.push(Section { kind: kind_of(text), lines: vec![line.clone()], keys: Vec::new() });
            continue;
        }
        let section = sections.last_mut()?;
        let place = section.lines.len();
        section.lines.push(line.clone());
        if is_inside {
            depth += brackets(text);
            section.keys.last_mut()?.end = place + 1;
        } else if !text.is_empty() && !text.starts_with('#') {
            let (name, value) = text.split_once('=')?;
            let name = name.trim().trim_matches(['"', '\'']).to_string();
            section.keys.push(Key { name, first: place, end: place + 1 });
            depth = brackets(value).max(0);
        }
    }
    Some(sections)
}

fn kind_of(text: &str) -> Kind {
    let inside = text.split('#').next().unwrap_or_default().trim().trim_start_matches('[').trim_end_matches(']');
    let words: Vec<&str> = inside.split('.').map(|word| word.trim().trim_matches(['"', '\''])).collect();
    let is_usual = words.iter().enumerate().all(|(at, word)| *word == ["child", "tree"][at % 2]);
    match (text.starts_with("[["), words.len() % 2) {
        (true, 1) if is_usual => Kind::Child(words.len() / 2),
        (false, 0) if is_usual => Kind::Tree(words.len() / 2 - 1),
        _ => match words[..] {
            ["template", name] if !text.starts_with("[[") => Kind::Template(name.to_string()),
            _ => Kind::Other,
        },
    }
}

#[cfg(test)]
mod tests {
    use super::*;

    #[test]
    fn heads_and_keys_are_found() {
        let text = "intensity = 3\n[[child]] # x\nid = \"a\"\ncommand = [\n  \"x\", # ]\n  '[',\n]\n\n[child.tree]\n[[child.tree.child]]\n'id' = 'b'\n[template.web]\nenv = []\n[web]\n";
        let sections = sections_of(&lines_of("f", text)).unwrap();
        let kinds: Vec<&Kind> = sections.iter().map(|section| &section.kind).collect();
        let template = Kind::Template("web".into());
        assert_eq!(kinds, [&Kind::Top, &Kind::Child(0), &Kind::Tree(0), &Kind::Child(1), &template, &Kind::Other]);
        let command = sections[1].key("command").unwrap();
        assert_eq!((command.first, command.end, sections[1].string("id")), (2, 6, Some("a")));
        assert_eq!((sections[3].string("id"), sections[3].lines[0].number), (Some("b"), 10));
        assert_eq!(sections_of(&lines_of("f", "a = \"\"\"\n[x]\n\"\"\"")), None);
        assert_eq!(sections_of(&lines_of("f", "nonsense")), None);
    }
}
