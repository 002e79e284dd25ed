//! Looks the keys of a table up, and says what is wrong with them: each fault names the file, the line, the table and the key.

use crate::near;
use crate::subset::{BadLine, Entry, Place, Table, Value};
use std::collections::BTreeMap;

/// What other supervisors call something, and what it is called here. Letters count in either case.
const FOREIGN: [(&str, &str); 46] = [
    ("directory", "folder"),
    ("workingdirectory", "folder"),
    ("cwd", "folder"),
    ("execstart", "command"),
    ("exec", "command"),
    ("environment", "env"),
    ("environmentfile", "env_file"),
    ("stopsignal", "signal"),
    ("killsignal", "signal"),
    ("killmode", "signal_to"),
    ("stopasgroup", "signal_to"),
    ("killasgroup", "signal_to"),
    ("supplementarygroups", "groups"),
    ("supplementary_groups", "groups"),
    ("nonewprivileges", "no_new_privileges"),
    ("rlimits", "limits"),
    ("limitnofile", "limits = [\"nofile=..\"]"),
    ("limitnproc", "limits = [\"nproc=..\"]"),
    ("limitcore", "limits = [\"core=..\"]"),
    ("limitmemlock", "limits = [\"memlock=..\"]"),
    ("memorymax", "memory_max"),
    ("memorylimit", "memory_max"),
    ("cpuweight", "cpu_weight"),
    ("tasksmax", "pids_max"),
    ("standardoutput", "output"),
    ("standarderror", "errors"),
    ("stdout_logfile", "output = \"file\" with output_file"),
    ("stderr_logfile", "errors = \"file\" with errors_file"),
    ("stdout_logfile_maxbytes", "output_max"),
    ("stdout_logfile_backups", "output_keep"),
    ("redirect_stderr", "errors = \"same\""),
    ("syslogidentifier", "output = \"syslog\", whose tag is the path"),
    ("type", "ready"),
    ("timeoutstartsec", "ready_within"),
    ("startsecs", "ready = \"after\" with ready_after"),
    ("watchdogsec", "watchdog"),
    ("restartsec", "restart_after"),
    ("restart", "restart of the child in the tree file"),
    ("autorestart", "restart of the child in the tree file"),
    ("startretries", "intensity of the supervisor in the tree file"),
    ("stopwaitsecs", "shutdown of the child in the tree file"),
    ("timeoutstopsec", "shutdown of the child in the tree file"),
    ("exitcodes", "normal_status"),
    ("successexitstatus", "normal_status"),
    ("restartpreventexitstatus", "normal_status"),
    ("numprocs", "instances"),
];

/// The keys of a table.
pub struct Keys<'a> {
    table: &'a Table,
}

impl<'a> Keys<'a> {
    /// Those of this table.
    pub fn of(table: &'a Table) -> Self {
        Keys { table }
    }

    /// All of them, with their values.
    pub fn said(&self) -> BTreeMap<String, Value> {
        self.table.entries.iter().map(|entry| (entry.key.clone(), entry.value.clone())).collect()
    }

    /// Where the table begins.
    pub fn head(&self) -> &'a Place {
        &self.table.place
    }

    /// Something is wrong in this table.
    pub fn bad<T>(&self, place: &Place, text: impl AsRef<str>) -> Result<T, BadLine> {
        Err(BadLine::new(place, format!("[{}] {}", self.table.name, text.as_ref())))
    }

    /// The key with its value.
    pub fn find(&self, key: &str) -> Option<&'a Entry> {
        self.table.entries.iter().find(|entry| entry.key == key)
    }

    /// A key that none of these is.
    pub fn only(&self, known: &[&str]) -> Result<(), BadLine> {
        let Some(entry) = self.table.entries.iter().find(|entry| !known.contains(&entry.key.as_str())) else {
            return Ok(());
        };
        let meant = FOREIGN.iter().find(|(foreign, _)| entry.key.eq_ignore_ascii_case(foreign));
        let remedy = match meant {
            Some((_, own)) => format!("; here it is {own}"),
            None => match near::nearest(&entry.key, known.iter().copied()) {
                Some(near) => format!("; did you mean {near}?"),
                None => format!("; the keys are {}", known.join(", ")),
            },
        };
        self.bad(&entry.place, format!("{} is no key{remedy}", entry.key))
    }

    /// A string without a NUL.
    pub fn text(&self, key: &str) -> Result<Option<(&'a Place, &'a str)>, BadLine> {
        match self.find(key) {
            None => Ok(None),
            Some(Entry { value: Value::Text(text), place, .. }) if !text.contains('\0') => Ok(Some((place, text))),
            Some(entry) => self.bad(&entry.place, format!("{key} is a string in quotes")),
        }
    }

    /// A whole number in these bounds.
    pub fn within(&self, key: &str, least: i64, most: i64) -> Result<Option<i64>, BadLine> {
        match self.find(key) {
            None => Ok(None),
            Some(Entry { value: Value::Number(number), .. }) if (least..=most).contains(number) => Ok(Some(*number)),
            Some(entry) => self.bad(&entry.place, format!("{key} is a whole number from {least} to {most}")),
        }
    }

    /// A whole number from 0 on.
    pub fn number(&self, key: &str, most: u32) -> Result<Option<u64>, BadLine> {
        Ok(self.within(key, 0, i64::from(most))?.map(|number| number as u64))
    }

    /// Whether something is so; where nothing is said, it isn't.
    pub fn truth(&self, key: &str) -> Result<bool, BadLine> {
        self.truth_or(key, false)
    }

    /// Whether something is so, with what holds where nothing is said.
    pub fn truth_or(&self, key: &str, usual: bool) -> Result<bool, BadLine> {
        match self.find(key) {
            None => Ok(usual),
            Some(Entry { value: Value::Truth(truth), .. }) => Ok(*truth),
            Some(entry) => self.bad(&entry.place, format!("{key} is true or false")),
        }
    }

    /// An array of strings without a NUL.
    pub fn texts(&self, key: &str) -> Result<Option<(&'a Place, &'a [String])>, BadLine> {
        match self.find(key) {
            None => Ok(None),
            Some(Entry { value: Value::Texts(texts), place, .. }) if !texts.iter().any(|text| text.contains('\0')) => {
                Ok(Some((place, texts)))
            }
            Some(entry) => self.bad(&entry.place, format!("{key} is an array of strings, as [\"one\", \"two\"]")),
        }
    }

    /// One of two keys stands for nothing without a value of the other.
    pub fn only_with(&self, key: &str, is_wanted: bool, with: &str) -> Result<(), BadLine> {
        match self.find(key) {
            Some(entry) if !is_wanted => {
                self.bad(&entry.place, format!("{key} says something only with {with}; write that, or drop it"))
            }
            _ => Ok(()),
        }
    }
}
