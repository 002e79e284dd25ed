//! What a daemon leaves to the program that replaces it: a text in a file that is in memory alone, and descriptors that stay open.
//!
//! Each line is a word and fields. What isn't known is passed over, so that a newer program may say more; without the last line,
//! `end`, all is refused.

pub mod rebuilt;
pub mod reopen;
pub mod replace;
pub mod resume;

use crate::metrics::{Last, Tally};
use crate::past::Counts;
use crate::subset::Value;
use std::collections::BTreeMap;
use std::ffi::OsString;
use std::fmt::Write;
use std::os::fd::RawFd;
use std::os::unix::ffi::{OsStrExt, OsStringExt};
use std::path::{Path, PathBuf};

const HEAD: &str = "otp-procs handover 1";

/// The keys of a plan, with their values.
pub type Said = BTreeMap<String, Value>;

/// All that is left.
#[derive(Clone, Debug, Default, PartialEq, Eq)]
pub struct Handover {
    /// The reading of the clock, and that of the system in microseconds then.
    pub reading: u64,
    pub monotonic: Option<u64>,
    /// The number of the next socket by which a process tells of itself.
    pub ears: u64,
    /// The log has had a tree in it already.
    pub has_reloaded: bool,
    /// The tree, and what its start words run.
    pub tree: String,
    /// By start words.
    pub tables: Vec<(String, Said)>,
    /// The folder of the control groups.
    pub cgroup: Option<PathBuf>,
    /// The descriptors of the control socket, of its lock, and of the client that waits.
    pub control: Option<[RawFd; 3]>,
    /// The last status of the process for which all runs.
    pub main_status: Option<i32>,
    /// Children that fail alone: how often, when they are started, and whether they are held.
    pub kept: Vec<(String, u32, Option<u64>, bool)>,
    /// Those that wait for others, and those that a reload couldn't start.
    pub waiting: Vec<String>,
    pub unstarted: Vec<String>,
    /// Nested supervisors that run.
    pub supervisors: Vec<String>,
    /// By the path of a supervisor what is counted of it, and the readings of those restarts that count on.
    pub past: Vec<(String, Counts, Vec<u64>)>,
    /// By paths how often children were started, and have ended.
    pub tallies: Vec<(String, Tally)>,
    /// Lines that the log couldn't be given.
    pub lost: u64,
    /// Processes that run.
    pub processes: Vec<Left>,
    /// The last lines of each.
    pub tails: Vec<(String, Vec<u8>)>,
}

/// A process that runs.
#[derive(Clone, Debug, Default, PartialEq, Eq)]
pub struct Left {
    /// Its number in the tree.
    pub number: u64,
    /// Its path, and the path of its supervisor if it shares its specification.
    pub path: String,
    pub above: Option<String>,
    pub start: String,
    pub pid: i32,
    /// At which reading it was up.
    pub since: u64,
    pub is_ready: bool,
    pub is_late: bool,
    pub is_unwatched: bool,
    pub kill_at: Option<u64>,
    pub extended: u64,
    pub watched_until: Option<u64>,
    pub words: Option<String>,
    /// On which it tells that it is up.
    pub notify: RawFd,
    /// By which it tells of itself, and the name of that.
    pub ear: Option<(RawFd, String)>,
    pub group: Option<PathBuf>,
    /// What it runs.
    pub plan: Said,
    pub outlets: Vec<LeftOutlet>,
}

/// What it writes to.
#[derive(Clone, Debug, Default, PartialEq, Eq)]
pub struct LeftOutlet {
    pub is_errors: bool,
    /// Nothing (-1), once its end was read.
    pub pipe: RawFd,
    /// The text that tells that it is up wasn't seen.
    pub is_searching: bool,
    /// What came of a line that isn't whole, and so many pieces of it before.
    pub rest: Vec<u8>,
    pub parts: u64,
    /// What was read and not written.
    pub unwritten: Vec<u8>,
}

fn hex(bytes: &[u8]) -> String {
    let mut text = String::from("x");
    for byte in bytes {
        let _ = write!(text, "{byte:02x}");
    }
    text
}

fn unhex(word: &str) -> Option<Vec<u8>> {
    let digits = word.strip_prefix('x')?.as_bytes();
    digits.chunks(2).map(|two| u8::from_str_radix(std::str::from_utf8(two).ok()?, 16).ok()).collect()
}

fn hex_path(path: &Path) -> String {
    hex(path.as_os_str().as_bytes())
}

/// A field that may be lacking.
fn or_none<T>(value: Option<T>, text: impl Fn(T) -> String) -> String {
    value.map_or("-".to_string(), text)
}

fn word_of_value(value: &Value) -> String {
    match value {
        Value::Text(text) => format!("s{}", hex(text.as_bytes())),
        Value::Number(number) => format!("n{number}"),
        Value::Truth(truth) => format!("t{truth}"),
        Value::Texts(texts) => {
            let texts: Vec<String> = texts.iter().map(|text| hex(text.as_bytes())).collect();
            format!("a{}", texts.join(","))
        }
    }
}

fn value_of_word(word: &str) -> Option<Value> {
    let text = |word: &str| String::from_utf8(unhex(word)?).ok();
    let (kind, rest) = word.split_at_checked(1)?;
    Some(match kind {
        "s" => Value::Text(text(rest)?),
        "n" => Value::Number(rest.parse().ok()?),
        "t" => Value::Truth(rest.parse().ok()?),
        "a" if rest.is_empty() => Value::Texts(Vec::new()),
        "a" => Value::Texts(rest.split(',').map(text).collect::<Option<_>>()?),
        _ => return None,
    })
}

/// The keys of a plan as one word.
fn word_of_said(said: &Said) -> String {
    let entries: Vec<String> = said.iter().map(|(key, value)| format!("{key}={}", word_of_value(value))).collect();
    format!(";{}", entries.join(";"))
}

fn line_of_past(path: &str, counts: &Counts, times: &[u64]) -> String {
    let times: String = times.iter().map(|time| format!(" {time}")).collect();
    let Counts { restarts, in_period, starts, cause } = counts;
    let cause = or_none(*cause, |cause| cause.to_string());
    format!("past {} {restarts} {in_period} {starts} {cause}{times}", hex(path.as_bytes()))
}

fn line_of_tally(path: &str, tally: &Tally) -> String {
    let Tally { starts, exits, last } = tally;
    let last = last.as_ref().map_or(String::new(), |last| {
        let Last { at, text, has_begun, is_asked, is_fine } = last;
        format!(" {at} {} {has_begun} {is_asked} {is_fine}", hex(text.as_bytes()))
    });
    format!("tally {} {starts} {exits}{last}", hex(path.as_bytes()))
}

/// The fields of a line.
struct Fields<'a>(std::str::Split<'a, char>);

impl Fields<'_> {
    fn word(&mut self) -> Option<&str> {
        self.0.next()
    }

    fn number<T: std::str::FromStr>(&mut self) -> Option<T> {
        self.word()?.parse().ok()
    }

    /// Whether there are more.
    fn has_more(&self) -> bool {
        self.0.clone().next().is_some()
    }

    fn last(&mut self) -> Option<Last> {
        Some(Last {
            at: self.number()?,
            text: self.text()?,
            has_begun: self.number()?,
            is_asked: self.number()?,
            is_fine: self.number()?,
        })
    }

    fn bytes(&mut self) -> Option<Vec<u8>> {
        unhex(self.word()?)
    }

    fn text(&mut self) -> Option<String> {
        String::from_utf8(self.bytes()?).ok()
    }

    /// A field that may be lacking: the answer is nothing where it can't be read.
    #[allow(clippy::option_option)]
    fn maybe<T>(&mut self, read: impl Fn(&str) -> Option<T>) -> Option<Option<T>> {
        match self.word()? {
            "-" => Some(None),
            word => read(word).map(Some),
        }
    }

    fn said(&mut self) -> Option<Said> {
        let entries = self.word()?.strip_prefix(';')?;
        let entry =
            |entry: &str| entry.split_once('=').and_then(|(key, word)| Some((key.to_string(), value_of_word(word)?)));
        entries.split(';').filter(|entry| !entry.is_empty()).map(entry).collect()
    }
}

fn path_of(word: &str) -> Option<PathBuf> {
    Some(OsString::from_vec(unhex(word)?).into())
}

fn text_of(word: &str) -> Option<String> {
    String::from_utf8(unhex(word)?).ok()
}

fn number_of(word: &str) -> Option<u64> {
    word.parse().ok()
}

impl Handover {
    /// As it is written.
    pub fn text(&self) -> String {
        let mut text =
            format!("{HEAD}\nreading {}\nears {}\nreloaded {}\n", self.reading, self.ears, self.has_reloaded);
        let mut add = |line: String| {
            text.push_str(&line);
            text.push('\n');
        };
        add(format!("lost {}", self.lost));
        if let Some(monotonic) = self.monotonic {
            add(format!("monotonic {monotonic}"));
        }
        add(format!("tree {}", hex(self.tree.as_bytes())));
        for (word, said) in &self.tables {
            add(format!("table {} {}", hex(word.as_bytes()), word_of_said(said)));
        }
        if let Some(folder) = &self.cgroup {
            add(format!("cgroup {}", hex_path(folder)));
        }
        if let Some([socket, lock, client]) = self.control {
            add(format!("control {socket} {lock} {client}"));
        }
        if let Some(status) = self.main_status {
            add(format!("main {status}"));
        }
        for (path, times, due, is_held) in &self.kept {
            add(format!("kept {} {times} {} {is_held}", hex(path.as_bytes()), or_none(*due, |due| due.to_string())));
        }
        for (word, paths) in
            [("waiting", &self.waiting), ("unstarted", &self.unstarted), ("supervisor", &self.supervisors)]
        {
            for path in paths {
                add(format!("{word} {}", hex(path.as_bytes())));
            }
        }
        for (path, counts, times) in &self.past {
            add(line_of_past(path, counts, times));
        }
        for (path, tally) in &self.tallies {
            add(line_of_tally(path, tally));
        }
        for process in &self.processes {
            add(process.line());
            for outlet in &process.outlets {
                add(outlet.line());
            }
        }
        for (path, bytes) in &self.tails {
            add(format!("tail {} {}", hex(path.as_bytes()), hex(bytes)));
        }
        text + "end\n"
    }

    /// What such a text says; nothing where it is none.
    pub fn read(text: &str) -> Option<Self> {
        let mut lines = text.lines();
        if lines.next() != Some(HEAD) {
            return None;
        }
        let mut found = Handover::default();
        for line in lines {
            let (word, rest) = line.split_once(' ').unwrap_or((line, ""));
            if word == "end" {
                return Some(found);
            }
            found.take(word, &mut Fields(rest.split(' ')))?;
        }
        None
    }

    fn take(&mut self, word: &str, fields: &mut Fields<'_>) -> Option<()> {
        match word {
            "reading" => self.reading = fields.number()?,
            "ears" => self.ears = fields.number()?,
            "reloaded" => self.has_reloaded = fields.number()?,
            "tree" => self.tree = fields.text()?,
            "table" => self.tables.push((fields.text()?, fields.said()?)),
            "cgroup" => self.cgroup = Some(path_of(fields.word()?)?),
            "control" => self.control = Some([fields.number()?, fields.number()?, fields.number()?]),
            "main" => self.main_status = Some(fields.number()?),
            "kept" => {
                self.kept.push((fields.text()?, fields.number()?, fields.maybe(number_of)?, fields.number()?));
            }
            "waiting" => self.waiting.push(fields.text()?),
            "unstarted" => self.unstarted.push(fields.text()?),
            "supervisor" => self.supervisors.push(fields.text()?),
            "monotonic" => self.monotonic = Some(fields.number()?),
            "lost" => self.lost = fields.number()?,
            "past" => {
                let path = fields.text()?;
                let (restarts, in_period, starts) = (fields.number()?, fields.number()?, fields.number()?);
                let counts = Counts { restarts, in_period, starts, cause: fields.maybe(|word| word.parse().ok())? };
                let times = std::iter::from_fn(|| fields.0.next()).map(|word| word.parse().ok());
                self.past.push((path, counts, times.collect::<Option<_>>()?));
            }
            "tally" => {
                let path = fields.text()?;
                let (starts, exits) = (fields.number()?, fields.number()?);
                let last = if fields.has_more() { Some(fields.last()?) } else { None };
                self.tallies.push((path, Tally { starts, exits, last }));
            }
            "process" => self.processes.push(Left::read(fields)?),
            "outlet" => self.processes.last_mut()?.outlets.push(LeftOutlet::read(fields)?),
            "tail" => self.tails.push((fields.text()?, fields.bytes()?)),
            _ => {}
        }
        Some(())
    }
}

impl Left {
    fn line(&self) -> String {
        let text = |text: &String| hex(text.as_bytes());
        let number = |number: u64| number.to_string();
        let (ear, name) = self.ear.as_ref().map_or((-1, "-".to_string()), |(fd, name)| (*fd, hex(name.as_bytes())));
        [
            "process".to_string(),
            number(self.number),
            text(&self.path),
            or_none(self.above.as_ref(), text),
            text(&self.start),
            self.pid.to_string(),
            number(self.since),
            format!("{} {} {}", self.is_ready, self.is_late, self.is_unwatched),
            or_none(self.kill_at, number),
            number(self.extended),
            or_none(self.watched_until, number),
            or_none(self.words.as_ref(), text),
            format!("{} {ear} {name}", self.notify),
            or_none(self.group.as_deref(), hex_path),
            word_of_said(&self.plan),
        ]
        .join(" ")
    }

    fn read(fields: &mut Fields<'_>) -> Option<Self> {
        let mut left = Left {
            number: fields.number()?,
            path: fields.text()?,
            above: fields.maybe(text_of)?,
            start: fields.text()?,
            pid: fields.number()?,
            since: fields.number()?,
            is_ready: fields.number()?,
            is_late: fields.number()?,
            is_unwatched: fields.number()?,
            kill_at: fields.maybe(number_of)?,
            extended: fields.number()?,
            watched_until: fields.maybe(number_of)?,
            words: fields.maybe(text_of)?,
            notify: fields.number()?,
            ..Left::default()
        };
        let (ear, name) = (fields.number()?, fields.maybe(text_of)?);
        left.ear = name.map(|name| (ear, name));
        left.group = fields.maybe(path_of)?;
        left.plan = fields.said()?;
        Some(left)
    }
}

impl LeftOutlet {
    fn line(&self) -> String {
        let LeftOutlet { is_errors, pipe, is_searching, parts, .. } = self;
        let (rest, unwritten) = (hex(&self.rest), hex(&self.unwritten));
        format!("outlet {is_errors} {pipe} {is_searching} {parts} {rest} {unwritten}")
    }

    fn read(fields: &mut Fields<'_>) -> Option<Self> {
        Some(LeftOutlet {
            is_errors: fields.number()?,
            pipe: fields.number()?,
            is_searching: fields.number()?,
            parts: fields.number()?,
            rest: fields.bytes()?,
            unwritten: fields.bytes()?,
        })
    }
}

#[cfg(test)]
mod tests {
    use super::*;
    use otp_supervision::EndCause;

    fn whole() -> Handover {
        let said: Said = [
            ("command", Value::Texts(vec!["a b".into(), String::new(), "é;=,".into()])),
            ("env", Value::Texts(Vec::new())),
            ("notify_fd", Value::Number(-4)),
            ("clear_env", Value::Truth(true)),
            ("folder", Value::Text("/x y\n".into())),
        ]
        .map(|(key, value)| (key.to_string(), value))
        .into();
        let last = Last { at: 7, text: "status 1".into(), has_begun: true, is_asked: false, is_fine: false };
        let outlet = LeftOutlet { pipe: -1, rest: b"half\x00 \n".to_vec(), parts: 3, ..LeftOutlet::default() };
        let process = Left {
            number: 7,
            path: "pool/#7".into(),
            above: Some("pool/".into()),
            start: "s".into(),
            pid: 12,
            is_ready: true,
            kill_at: Some(5),
            words: Some("at work".into()),
            notify: -1,
            ear: Some((11, "otp-procs/1/0".into())),
            group: Some("/sys/fs/cgroup/x".into()),
            plan: said.clone(),
            outlets: vec![outlet.clone(), LeftOutlet { is_errors: true, pipe: 14, ..outlet }],
            ..Left::default()
        };
        Handover {
            reading: 123_456,
            tree: "[[child]]\nid = 'é'\n".into(),
            tables: vec![("s".into(), said), ("t".into(), Said::new())],
            control: Some([10, 11, -1]),
            main_status: Some(256),
            kept: vec![("a".into(), 3, None, true), ("b".into(), 1, Some(99), false)],
            waiting: vec!["c".into()],
            supervisors: vec!["pool".into()],
            past: vec![
                (String::new(), Counts { restarts: 9, in_period: 3, starts: 0, cause: None }, vec![5, 5, 123_000]),
                (
                    "pool/".into(),
                    Counts { restarts: 0, in_period: 2, starts: 3, cause: Some(EndCause::Intensity) },
                    Vec::new(),
                ),
            ],
            tallies: vec![
                ("a".into(), Tally { starts: 3, exits: 2, last: Some(last) }),
                ("b".into(), Tally { starts: 1, ..Tally::default() }),
            ],
            monotonic: Some(77),
            lost: 4,
            processes: vec![Left { notify: 9, ..Left::default() }, process],
            tails: vec![("a".into(), b"line\n".to_vec())],
            ..Handover::default()
        }
    }

    #[test]
    fn what_is_written_is_read() {
        let text = whole().text();
        assert_eq!(Handover::read(&text), Some(whole()));
        assert_eq!(Handover::read(&text.replace("ears 0", "ears 0\nnewer 1 2 3")), Some(whole()));
    }

    #[test]
    fn what_is_not_whole_is_refused() {
        let text = whole().text();
        for bad in ["", "x", text.strip_suffix("end\n").unwrap(), &text.replacen(" 1\n", " 2\n", 1)] {
            assert_eq!(Handover::read(bad), None);
        }
        // Whatever is cut away: it is refused, or is a text that lacks what nobody has to say.
        for at in 0..text.len() {
            let _ = Handover::read(&text[..at]);
            let _ = Handover::read(&format!("{}{}", &text[..at], &text[(at + 7).min(text.len())..]));
        }
    }
}
