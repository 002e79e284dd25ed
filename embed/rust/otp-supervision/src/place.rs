//! Where a fault stands in a tree file. The library tells the supervisor and its child; the line is looked for here, in files of the
//! usual form: heads such as `[[child]]`, and a key with its value on a line. In others no line is told.

use crate::fault::{FaultPlace, TreeFault};

/// The keys of a supervisor and of a child, by the numbers that the header has for them, from 1.
pub(crate) const SUPERVISOR_KEYS: [&str; 5] = ["strategy", "intensity", "period", "auto_shutdown", "child"];
pub(crate) const CHILD_KEYS: [&str; 8] =
    ["id", "start", "restart", "significant", "shutdown", "type", "modules", "tree"];

/// The code of a fault that names no key, though it is about one.
const UNKNOWN_KEY: u32 = 11;
/// The codes of faults that are of the whole file: it is no TOML, or has too many supervisors, or too deep ones.
const OF_ALL: [u32; 3] = [10, 14, 15];

/// The keys of a supervisor or of a child, as they stand in the file.
#[derive(Debug, Default)]
struct Section {
    /// The line of its head, from 1.
    line: usize,
    /// Each key with its line and the text of its value.
    keys: Vec<(usize, String, String)>,
}

/// A supervisor of the file.
#[derive(Debug, Default)]
struct Table {
    own: Section,
    children: Vec<Section>,
    /// The supervisor above it, and the place of its child there.
    above: Option<(usize, usize)>,
}

/// The supervisors of a file of the usual form, by their numbers.
fn tables_of(text: &str) -> Option<Vec<Table>> {
    let mut tables = vec![Table { own: Section { line: 1, keys: Vec::new() }, ..Table::default() }];
    // The supervisors from the root down to the one that the last head was in, and whether the head was its own.
    let (mut open, mut is_own) = (vec![0], true);
    let (mut depth, mut is_foreign) = (0, false);
    for (index, line) in text.lines().enumerate() {
        let line = line.trim();
        // What stands in an array over several lines.
        if depth > 0 {
            depth += brackets(line);
            continue;
        }
        if line.is_empty() || line.starts_with('#') || is_foreign && !line.starts_with('[') {
            continue;
        }
        is_foreign = false;
        let section = Section { line: index + 1, keys: Vec::new() };
        if let Some(level) = level_of(line, "[[", "]]", ".child") {
            enter(&mut tables, &mut open, level, index + 1)?;
            tables[*open.last()?].children.push(section);
            is_own = false;
        } else if let Some(level) = level_of(line, "[", "]", ".tree") {
            let count = tables.len();
            enter(&mut tables, &mut open, level + 1, index + 1)?;
            if tables.len() == count {
                tables[*open.last()?].own.line = index + 1;
            }
            is_own = true;
        } else if let Some(word) = foreign_head(line) {
            tables[0].own.keys.push((index + 1, word.to_string(), String::new()));
            is_foreign = true;
        } else {
            let (key, value) = key_of(line)?;
            depth = brackets(value);
            let table = tables.get_mut(*open.last()?)?;
            let section = if is_own { &mut table.own } else { table.children.last_mut()? };
            section.keys.push((index + 1, key.to_string(), value.to_string()));
        }
    }
    Some(tables)
}

/// A key with its value, if both stand on the line as they usually do.
fn key_of(line: &str) -> Option<(&str, &str)> {
    let (key, value) = line.split_once('=')?;
    let (key, value) = (key.trim().trim_matches(['"', '\'']), value.trim());
    let is_whole = !value.starts_with('{') && !value.contains("\"\"\"") && !value.contains("'''");
    (is_whole && !key.contains(['.', '[', ' '])).then_some((key, value))
}

/// How many brackets more are opened than closed, outside of strings and in front of a comment. The daemon, which splits such files,
/// counts by it too.
pub fn brackets(line: &str) -> i32 {
    let (mut depth, mut quote) = (0, None);
    for c in line.chars() {
        match (quote, c) {
            (Some(open), c) if c == open => quote = None,
            (None, '"' | '\'') => quote = Some(c),
            (None, '#') => return depth,
            (None, '[') => depth += 1,
            (None, ']') => depth -= 1,
            _ => {}
        }
    }
    depth
}

/// The word of a head like `[web]`, which a tree file has none of.
fn foreign_head(line: &str) -> Option<&str> {
    let word = line.trim_start_matches('[').split(']').next()?.trim().trim_matches(['"', '\'']);
    (line.starts_with('[') && !word.is_empty() && word != "child" && !word.contains('.')).then_some(word)
}

/// Of a head `child.tree.child` the number of `tree` in it, or of `child.tree` that less one.
fn level_of(line: &str, open: &str, close: &str, end: &str) -> Option<usize> {
    let inside = line.split(" #").next()?.trim().strip_prefix(open)?.strip_suffix(close)?;
    let words: Vec<&str> = inside.split('.').map(str::trim).collect();
    let is_usual = words.iter().enumerate().all(|(at, word)| *word == ["child", "tree"][at % 2]);
    (is_usual && format!(".{inside}").ends_with(end)).then_some((words.len() - 1) / 2)
}

/// Goes to the supervisor of this level, below the children that were read last. It is a new one where the file hasn't told of it.
fn enter(tables: &mut Vec<Table>, open: &mut Vec<usize>, level: usize, line: usize) -> Option<()> {
    open.truncate(level + 1);
    while open.len() <= level {
        let above = *open.last()?;
        let child = tables[above].children.len().checked_sub(1)?;
        let known = tables.iter().position(|table| table.above == Some((above, child)));
        open.push(known.unwrap_or(tables.len()));
        if known.is_none() {
            let own = Section { line, keys: Vec::new() };
            tables.push(Table { own, above: Some((above, child)), ..Table::default() });
        }
    }
    Some(())
}

/// The id of a child, or its place.
fn name_of(section: &Section, place: usize) -> String {
    let value = section.keys.iter().find(|(_, key, _)| key == "id").map(|(_, _, value)| value);
    let id = value.and_then(|value| value.split(value.get(..1)?).nth(1)).filter(|id| !id.is_empty());
    id.map_or_else(|| format!("number {place}"), str::to_string)
}

/// The path of a supervisor, with a `/` behind it.
fn path_of(tables: &[Table], number: usize) -> String {
    match tables[number].above {
        None => String::new(),
        Some((above, child)) => {
            format!("{}{}/", path_of(tables, above), name_of(&tables[above].children[child], child))
        }
    }
}

/// Where a fault stands in the file that has it.
pub(crate) fn of(text: &str, fault: &TreeFault) -> Option<FaultPlace> {
    let tables = tables_of(text).filter(|_| !OF_ALL.contains(&fault.code))?;
    let number = fault.supervisor.number() as usize;
    let (table, above) = (tables.get(number)?, path_of(&tables, number));
    let (section, path, known) = match fault.child {
        Some(child) => {
            let section = table.children.get(child as usize)?;
            (section, format!("{above}{}", name_of(section, child as usize)), &CHILD_KEYS[..])
        }
        None => (&table.own, above, &SUPERVISOR_KEYS[..]),
    };
    let (mut line, mut unknown) = (section.line, None);
    if let Some(wanted) = fault.key {
        line = section.keys.iter().find(|(_, key, _)| key == wanted).map_or(line, |(line, _, _)| *line);
    } else if fault.code == UNKNOWN_KEY {
        let (at, key, _) = section.keys.iter().find(|(_, key, _)| !known.contains(&key.as_str()))?;
        (line, unknown) = (*at, Some(key.clone()));
    }
    Some(FaultPlace { line: Some(line), path, unknown })
}
