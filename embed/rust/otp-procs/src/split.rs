//! Splits a tree file whose children have the keys of commands: into the tree that the library reads, and a table for each child.
//! A child may be left out (`enabled = false`), or stand for several (`instances`).

use crate::files::{self, Templates};
use crate::near;
use crate::plan::KEYS;
use crate::sections::{self, Kind, Line, Section};
use crate::subset::{self, BadLine, Entry, Place, Table, Value};
use std::collections::BTreeSet;
use std::error::Error;
use std::path::Path;

/// Keys of children that say what becomes of them here.
const OWN: [&str; 3] = ["use", "enabled", "instances"];
/// What an instance's name takes the place of.
const INSTANCE: &str = "{i}";

/// A tree file that was split.
#[derive(Debug, Default)]
pub struct Split {
    /// The tree.
    pub text: String,
    /// Where each of its lines stands in the files.
    pub places: Vec<Place>,
    /// The tables of its children.
    pub tables: Vec<Table>,
}

fn is_taken_out(key: &str) -> bool {
    OWN.contains(&key) || KEYS.contains(&key)
}

/// Splits the text of a file. Start words that are off take their children with them; templates are added to those there are.
pub fn split(
    file: &Path,
    text: &str,
    templates: &mut Templates,
    off: &BTreeSet<String>,
) -> Result<Split, Box<dyn Error>> {
    let name = file.display().to_string();
    let lines = sections::lines_of(&name, text);
    let whole = || Split { text: text.to_string(), places: lines.iter().map(place_of).collect(), tables: Vec::new() };
    let Some(mut sections) = sections::sections_of(&lines) else { return Ok(whole()) };
    let has_own = |section: &Section| match section.kind {
        Kind::Top => section.key("include").is_some(),
        Kind::Child(_) => section.keys.iter().any(|key| is_taken_out(&key.name)),
        Kind::Template(_) => true,
        Kind::Tree(_) | Kind::Other => false,
    };
    if off.is_empty() && !sections.iter().any(has_own) {
        return Ok(whole());
    }
    sections.extend(included(file, &sections[0])?);
    let mut splitter = Splitter { off, split: Split::default(), taken: BTreeSet::new() };
    for section in &sections {
        if let Kind::Template(name) = &section.kind {
            let table = template_of(name, section)?;
            if let Some(other) = templates.insert(name.clone(), table) {
                let text = format!("the template {name} stands at {} already; drop one", other.place);
                return Err(BadLine::new(&place_of(&section.lines[0]), text).into());
            }
        }
    }
    splitter.each(&sections, None, "")?;
    Ok(splitter.split)
}

fn place_of(line: &Line) -> Place {
    Place { file: line.file.clone(), line: line.number }
}

/// The sections of included files: children and templates.
fn included(file: &Path, top: &Section) -> Result<Vec<Section>, Box<dyn Error>> {
    let entries = entries_of(top, |key| key == "include")?;
    let mut sections = Vec::new();
    for file in files::included(file, &entries)? {
        let name = file.display().to_string();
        let lines = sections::lines_of(&name, &files::text_of(&file)?);
        let found = sections::sections_of(&lines).ok_or_else(|| {
            format!("{name} has a form that isn't read here; write heads such as [[child]] and a key on each line")
        })?;
        for section in found {
            match section.kind {
                Kind::Top if section.keys.is_empty() => {}
                Kind::Child(_) | Kind::Tree(_) | Kind::Template(_) => sections.push(section),
                Kind::Top | Kind::Other => {
                    let at = section.keys.first().map_or(0, |key| key.first);
                    let place = place_of(section.lines.get(at).unwrap_or(&top.lines[0]));
                    return Err(
                        BadLine::new(&place, "an included file has children ([[child]]) and templates alone").into()
                    );
                }
            }
        }
    }
    Ok(sections)
}

/// The keys of a section that are wanted, with their values.
fn entries_of(section: &Section, is_wanted: impl Fn(&str) -> bool) -> Result<Vec<Entry>, BadLine> {
    let mut entries = Vec::new();
    for key in section.keys.iter().filter(|key| is_wanted(&key.name)) {
        let lines = &section.lines[key.first..key.end];
        let text: Vec<&str> = lines.iter().map(|line| line.text.as_str()).collect();
        let read = subset::read_from(&lines[0].file, lines[0].number, &text.join("\n"))?;
        for entry in read.top {
            if entries.iter().any(|other: &Entry| other.key == entry.key) {
                return Err(BadLine::new(&entry.place, format!("the key {} is there already; drop one", entry.key)));
            }
            entries.push(entry);
        }
    }
    Ok(entries)
}

fn template_of(name: &str, section: &Section) -> Result<Table, BadLine> {
    let entries = entries_of(section, |_| true)?;
    Ok(Table { name: name.to_string(), place: place_of(&section.lines[0]), entries, is_template: true, instance: None })
}

struct Splitter<'a> {
    off: &'a BTreeSet<String>,
    split: Split,
    taken: BTreeSet<String>,
}

impl Splitter<'_> {
    fn push(&mut self, text: &str, place: Place) {
        self.split.text.push_str(text);
        self.split.text.push('\n');
        self.split.places.push(place);
    }

    /// These sections, of one instance if they are of one, below this path.
    fn each(&mut self, sections: &[Section], instance: Option<&str>, above: &str) -> Result<(), BadLine> {
        let mut at = 0;
        while at < sections.len() {
            let section = &sections[at];
            let Kind::Child(level) = section.kind else {
                if !matches!(section.kind, Kind::Template(_)) {
                    self.plain(section, instance);
                }
                at += 1;
                continue;
            };
            let is_end = |section: &Section| {
                matches!(section.kind, Kind::Child(other) if other <= level)
                    || matches!(section.kind, Kind::Template(_) | Kind::Other)
            };
            let end = sections[at + 1..].iter().position(is_end).map_or(sections.len(), |count| at + 1 + count);
            self.block(&sections[at..end], instance, above)?;
            at = end;
        }
        Ok(())
    }

    /// The lines of a section that has no keys of ours, but for `include`.
    fn plain(&mut self, section: &Section, instance: Option<&str>) {
        let left_out = section.key("include").filter(|_| section.kind == Kind::Top);
        for (at, line) in section.lines.iter().enumerate() {
            if !left_out.is_some_and(|key| (key.first..key.end).contains(&at)) {
                self.push(&with_instance(&line.text, instance), place_of(line));
            }
        }
    }

    /// A child with what is below it: left out, once, or once for each instance.
    fn block(&mut self, block: &[Section], instance: Option<&str>, above: &str) -> Result<(), BadLine> {
        let child = &block[0];
        let own = entries_of(child, |key| OWN.contains(&key))?;
        let find = |key: &str| own.iter().find(|entry| entry.key == key);
        let is_off = child.string("start").is_some_and(|start| self.off.contains(start));
        if is_off || !find("enabled").map_or(Ok(true), files::is_enabled)? {
            return Ok(());
        }
        let Some(entry) = find("instances") else { return self.child(block, instance, false, above) };
        let names = match &entry.value {
            Value::Texts(names) if !names.is_empty() => names,
            _ => return Err(BadLine::new(&entry.place, "instances is an array of names, as [\"1\", \"2\"]")),
        };
        if instance.is_some() {
            return Err(BadLine::new(&entry.place, "instances stands below other instances; write one of them out"));
        }
        names.iter().try_for_each(|name| self.child(block, Some(name), true, above))
    }

    fn child(
        &mut self,
        block: &[Section],
        instance: Option<&str>,
        is_instance: bool,
        above: &str,
    ) -> Result<(), BadLine> {
        let child = &block[0];
        let id = id_of(child, instance, is_instance);
        let path = format!("{above}{id}");
        let has_tree = block.len() > 1;
        let entries = entries_of(child, |key| is_taken_out(key) && !["enabled", "instances"].contains(&key))?;
        let head = place_of(&child.lines[0]);
        let first = entries.first().map_or(head.clone(), |entry| entry.place.clone());
        if has_tree && !entries.is_empty() {
            return Err(BadLine::new(
                &first,
                format!("child {path} has a tree, so it runs nothing; drop {}", entries[0].key),
            ));
        }
        let own_start = child.string("start").map(|start| with_instance(start, instance));
        let start = match &own_start {
            Some(start) => start.clone(),
            None => self.word_for(&path),
        };
        for (at, line) in child.lines.iter().enumerate() {
            let key = child.keys.iter().find(|key| (key.first..key.end).contains(&at));
            if key.is_some_and(|key| is_taken_out(&key.name)) {
                continue;
            }
            let is_id = is_instance && key.is_some_and(|key| key.name == "id");
            let text = if is_id { format!("id = \"{id}\"") } else { with_instance(&line.text, instance) };
            self.push(&text, place_of(line));
            if at == 0 && own_start.is_none() {
                self.push(&format!("start = \"{start}\""), head.clone());
            }
        }
        if !entries.is_empty() {
            let entries = entries.into_iter().map(|entry| entry.with_instance(instance)).collect();
            let instance = instance.map(str::to_string);
            self.split.tables.push(Table { name: start, place: head, entries, is_template: false, instance });
        }
        self.each(&block[1..], instance, &format!("{path}/"))
    }

    /// A start word for a child without one: its path, if that is one.
    fn word_for(&mut self, path: &str) -> String {
        let mut word = path.replace('/', ".");
        let mut number = 0;
        while otp_supervision::Name::new(&word).is_err() || self.taken.contains(&word) {
            number += 1;
            word = format!("w{number}");
        }
        self.taken.insert(word.clone());
        word
    }
}

fn with_instance(text: &str, instance: Option<&str>) -> String {
    instance.map_or_else(|| text.to_string(), |name| text.replace(INSTANCE, name))
}

/// The id of a child; of an instance with its name in it, or behind it.
fn id_of(child: &Section, instance: Option<&str>, is_instance: bool) -> String {
    let id = child.string("id").unwrap_or_default();
    match instance {
        Some(name) if is_instance && !id.contains(INSTANCE) => format!("{id}-{name}"),
        _ => with_instance(id, instance),
    }
}

/// What may have been meant by a key of a child that no reader knows.
pub fn near_key(key: &str, known: &[&str]) -> String {
    near::question(key, known.iter().chain(&KEYS).chain(&OWN).copied())
}
