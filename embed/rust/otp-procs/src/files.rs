//! What a run is made of: the tree file and the file of commands, or one file that has both, with what they include, and with
//! templates and instances. The library reads the tree alone, as it stands then; `show` prints that.

use crate::glob;
use crate::loading::Sources;
use crate::plan::{self, Plans};
use crate::split;
use crate::subset::{self, BadLine, Document, Entry, Place, Table, Value};
use crate::tree_file;
use otp_supervision::{OpenError, Tree};
use std::collections::{BTreeMap, BTreeSet};
use std::error::Error;
use std::fs::{self, File};
use std::io::Read;
use std::path::{Path, PathBuf};

/// So many bytes a file of a tree or of commands has at the most.
const MOST: u64 = 16 << 20;

/// The tables that others take keys from, by their names.
pub type Templates = BTreeMap<String, Table>;

/// The files of a run, as they were read.
#[derive(Debug)]
pub struct Files {
    /// The tree file.
    pub name: PathBuf,
    /// The tree, as the library reads it.
    pub tree: String,
    /// Where each line of it stands in the files.
    places: Vec<Place>,
    /// What each start word runs.
    pub plans: Plans,
    /// The file of commands, or the tree file where it has them.
    pub commands: PathBuf,
}

impl Files {
    /// Reads the files.
    pub fn read(tree: &Path, commands: Option<&Path>) -> Result<Self, Box<dyn Error>> {
        let mut tables = Vec::new();
        if let Some(file) = commands {
            tables = tables_of(file)?;
        }
        let text = text_of(tree)?;
        let (templates, mut tables): (Vec<Table>, Vec<Table>) = tables.into_iter().partition(|table| table.is_template);
        let mut templates: Templates = templates.into_iter().map(|table| (table.name.clone(), table)).collect();
        let off = take_disabled(&mut tables)?;
        let split = split::split(tree, &text, &mut templates, &off)?;
        let has_commands = commands.is_some() || !split.tables.is_empty();
        for table in split.tables {
            if tables.iter().any(|other| other.name == table.name) {
                let text = format!("the start word {} has a table already; give the child another start", table.name);
                return Err(BadLine::new(&table.place, text).into());
            }
            tables.push(table);
        }
        if !has_commands {
            let name = tree.display();
            return Err(format!(
                "{name} has no commands; name the file of commands, too, or write command = [..] in its children"
            )
            .into());
        }
        let mut plans = Plans::new();
        for table in tables {
            let table = resolved(table, &templates)?;
            plans.insert(table.name.clone(), plan::of_table(&table)?.into());
        }
        let commands = commands.unwrap_or(tree).to_path_buf();
        Ok(Files { name: tree.to_path_buf(), tree: split.text, places: split.places, plans, commands })
    }

    /// Those of a run that goes on.
    pub fn of_run(sources: &Sources, tree: String, plans: Plans) -> Self {
        let commands = sources.commands.as_ref().unwrap_or(&sources.tree).clone();
        Files { name: sources.tree.clone(), tree, places: Vec::new(), plans, commands }
    }

    /// The tree file alone, to play a log on: what its children run isn't looked at.
    pub fn read_tree(tree: &Path) -> Result<Self, Box<dyn Error>> {
        let split = split::split(tree, &text_of(tree)?, &mut Templates::new(), &BTreeSet::new())?;
        let (name, commands) = (tree.to_path_buf(), tree.to_path_buf());
        Ok(Files { name, tree: split.text, places: split.places, plans: Plans::new(), commands })
    }

    /// The tree that they tell of.
    pub fn open(&self) -> Result<Tree, Box<dyn Error>> {
        Tree::open(&self.tree).map_err(|error| match error {
            OpenError::Refused(fault) => tree_file::told(&self.name, &self.places, &fault).into(),
            error => format!("{}: {error}", self.name.display()).into(),
        })
    }
}

/// The text of a tree or of commands.
pub fn text_of(file: &Path) -> Result<String, Box<dyn Error>> {
    text_up_to(file, MOST)
}

/// The text of a file or a pipe, of at most so many bytes.
pub fn text_up_to(file: &Path, most: u64) -> Result<String, Box<dyn Error>> {
    let name = file.display();
    let mut bytes = Vec::new();
    let read = File::open(file).and_then(|file| file.take(most + 1).read_to_end(&mut bytes));
    read.map_err(|error| format!("{name}: {error}"))?;
    if bytes.len() as u64 > most {
        return Err(format!("{name} has more than {} MiB, too many for what it is to be", most >> 20).into());
    }
    String::from_utf8(bytes).map_err(|_| format!("{name} is not UTF-8").into())
}

fn document_of(file: &Path) -> Result<Document, Box<dyn Error>> {
    Ok(subset::read(&file.display().to_string(), &text_of(file)?)?)
}

/// The tables of a file of commands and of those that it includes.
fn tables_of(file: &Path) -> Result<Vec<Table>, Box<dyn Error>> {
    let document = document_of(file)?;
    let mut tables = document.tables;
    for included in included(file, &document.top)? {
        let more = document_of(&included)?;
        no_keys_above(&more.top)?;
        for table in more.tables {
            let same = |other: &&Table| (&other.name, other.is_template) == (&table.name, table.is_template);
            if let Some(other) = tables.iter().find(same) {
                let text = format!("the table [{}] stands at {} already; drop one", table.name, other.place);
                return Err(BadLine::new(&table.place, text).into());
            }
            tables.push(table);
        }
    }
    Ok(tables)
}

fn no_keys_above(top: &[Entry]) -> Result<(), BadLine> {
    match top.first() {
        Some(entry) if entry.key == "include" => {
            Err(BadLine::new(&entry.place, "an included file includes no other; name both in the first"))
        }
        Some(entry) => {
            Err(BadLine::new(&entry.place, "a key stands above the first head; an included file has none there"))
        }
        None => Ok(()),
    }
}

/// The files that the key `include` above the first head means, from the folder of the file that has it. Those that a pattern
/// means come in the order of their names; there may be none.
pub fn included(file: &Path, top: &[Entry]) -> Result<Vec<PathBuf>, BadLine> {
    let Some(entry) = top.first() else { return Ok(Vec::new()) };
    let bad = |text: String| Err(BadLine::new(&entry.place, text));
    if let Some(other) = top.iter().find(|entry| entry.key != "include") {
        let text = format!(
            "{} stands before the first table; only include does, so write a head such as [web] above it",
            other.key
        );
        return Err(BadLine::new(&other.place, text));
    }
    let Value::Texts(names) = &entry.value else {
        return bad("include is an array of files, as [\"conf.d/*.toml\"]".to_string());
    };
    let folder = file.parent().unwrap_or(Path::new(""));
    let mut files = Vec::new();
    for name in names {
        let path = folder.join(name);
        let last = path.file_name().map(|last| last.to_string_lossy().into_owned()).unwrap_or_default();
        if !glob::is_pattern(name) {
            files.push(path);
            continue;
        }
        let parent = path.parent().map(Path::to_path_buf).unwrap_or_default();
        if glob::is_pattern(&parent.to_string_lossy()) {
            return bad(format!(
                "include: {name:?} has a pattern in a folder's name; only the file's name may have one"
            ));
        }
        let looked_in = if parent.as_os_str().is_empty() { Path::new(".") } else { parent.as_path() };
        let entries = match fs::read_dir(looked_in) {
            Ok(entries) => entries,
            Err(error) => return bad(format!("include: {}: {error}", looked_in.display())),
        };
        let found = entries.filter_map(|entry| entry.ok()?.file_name().into_string().ok());
        let mut found: Vec<String> =
            found.filter(|found| !found.starts_with('.') && glob::matches(&last, found)).collect();
        found.sort();
        files.extend(found.into_iter().map(|found| parent.join(found)));
    }
    Ok(files)
}

/// Takes out the tables with `enabled = false`: the start words that they had.
fn take_disabled(tables: &mut Vec<Table>) -> Result<BTreeSet<String>, BadLine> {
    let mut off = BTreeSet::new();
    for table in tables.iter_mut() {
        if let Some(entry) = table.take("enabled")
            && !is_enabled(&entry)?
        {
            off.insert(table.name.clone());
        }
    }
    tables.retain(|table| !off.contains(&table.name));
    Ok(off)
}

/// The value of the key `enabled`.
pub fn is_enabled(entry: &Entry) -> Result<bool, BadLine> {
    match entry.value {
        Value::Truth(truth) => Ok(truth),
        _ => Err(BadLine::new(&entry.place, "enabled is true or false")),
    }
}

/// A table with the keys of the template that it uses, where it has none of its own.
fn resolved(mut table: Table, templates: &Templates) -> Result<Table, BadLine> {
    let Some(used) = table.take("use") else { return Ok(table) };
    let Value::Text(name) = &used.value else {
        return Err(BadLine::new(&used.place, format!("[{}] use is the name of a template in quotes", table.name)));
    };
    let Some(template) = templates.get(name) else {
        let near = crate::near::question(name, templates.keys().map(String::as_str));
        let text = format!("[{}] use: there is no template {name}{near}; write [template.{name}]", table.name);
        return Err(BadLine::new(&used.place, text));
    };
    for entry in &template.entries {
        if entry.key == "use" {
            return Err(BadLine::new(&entry.place, format!("[template.{name}] a template uses no other")));
        }
        if !table.entries.iter().any(|own| own.key == entry.key) {
            let mut entry = entry.clone();
            if let Some(instance) = &table.instance {
                entry.value = entry.value.with_instance(instance);
            }
            table.entries.push(entry);
        }
    }
    Ok(table)
}
