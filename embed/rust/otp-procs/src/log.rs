//! The log: a line for each order, each event and each remark.
//!
//! Lines are gathered and written together: at the end of each turn of the daemon, before a client is answered, or once there
//! are 64 KiB of them. No line is waited for. One that can't be written then (a full disk, a pipe that nobody reads) is lost
//! and counted, and the next line that is written says how many were. A line of which a part was written is ended later.

use crate::os;
use crate::record::{Calendar, Entry};
pub use crate::record::{Class, Record, Said, quoted};
use crate::rotate::Rotation;
use crate::sink::Sink;
use std::collections::VecDeque;
use std::fs::File;
use std::io::{self, Read, Seek, SeekFrom};
use std::path::{Path, PathBuf};

/// So many lines are kept for `ctl tail`, of so many bytes together.
const KEPT: usize = 1000;
const KEPT_BYTES: usize = 1024 * 1024;
/// So many bytes are gathered at the most.
const GATHERED: usize = 64 * 1024;
/// So many events are kept for `ctl events`.
const KEPT_EVENTS: usize = 1000;

/// The last lines.
#[derive(Debug, Default)]
struct Kept {
    lines: VecDeque<String>,
    bytes: usize,
    /// A line that isn't kept any more, whose room is.
    spare: String,
}

impl Kept {
    fn push(&mut self, line: String) {
        self.bytes += line.len();
        self.lines.push_back(line);
        while self.lines.len() > KEPT || self.bytes > KEPT_BYTES {
            let Some(line) = self.lines.pop_front() else { return };
            self.bytes -= line.len();
            self.spare = line;
        }
    }
}

/// Where the lines go, and those that are kept.
pub struct Log {
    sink: Sink,
    /// The file's whole path, if the lines go to one.
    file: Option<PathBuf>,
    rotation: Option<Rotation>,
    is_json: bool,
    calendar: Calendar,
    /// What isn't written yet.
    pending: Vec<u8>,
    /// So many bytes of it are the rest of a line whose beginning was written, and so long was the file then.
    torn: usize,
    size: Option<u64>,
    /// So many lines weren't written, which no line has told.
    lost: u64,
    /// So many in all.
    all_lost: u64,
    kept: Kept,
    /// The last events as JSON, each with its path.
    events: VecDeque<(String, String)>,
    /// So many of them are new since they were last taken.
    new_events: usize,
    /// So many there were in all.
    all_events: u64,
    /// Lines since they were last taken, for those that follow the log.
    fresh: Vec<String>,
    /// Somebody follows it.
    pub is_followed: bool,
    /// The reading of the last line.
    reading: u64,
}

impl Log {
    /// A log to the end of a file, which may be begun anew once it is too large, or else to the standard error.
    pub fn open(file: Option<&Path>, rotation: Option<Rotation>, is_json: bool) -> io::Result<Self> {
        let file = file.map(std::path::absolute).transpose()?;
        let sink = match &file {
            None => Sink::errors(),
            Some(file) => open_sink(file, rotation)?,
        };
        // What was cut off in the middle of a line (by the end of the machine, say) gets an end.
        let is_torn = file.as_ref().is_some_and(|file| ends_in_a_line(file).unwrap_or(false));
        let pending = if is_torn { b"\n".to_vec() } else { Vec::new() };
        let torn = pending.len();
        Ok(Log { file, rotation, pending, torn, ..Log::to(sink, is_json) })
    }

    fn to(sink: Sink, is_json: bool) -> Self {
        Log {
            sink,
            file: None,
            rotation: None,
            is_json,
            calendar: Calendar::default(),
            pending: Vec::new(),
            torn: 0,
            size: None,
            lost: 0,
            all_lost: 0,
            kept: Kept::default(),
            events: VecDeque::new(),
            new_events: 0,
            all_events: 0,
            fresh: Vec::new(),
            is_followed: false,
            reading: 0,
        }
    }

    /// Opens the file anew, so that whoever has renamed it gets a new one. Where that can't be had the old one is kept.
    /// Nothing is done, and `false` the answer, where the lines go to no file.
    pub fn reopen(&mut self) -> io::Result<bool> {
        self.flush();
        let Some(file) = &self.file else { return Ok(false) };
        self.sink = open_sink(file, self.rotation)?;
        // The rest of a line would stand alone in the new file.
        if !self.pending.is_empty() {
            self.pending.clear();
            (self.torn, self.size) = (0, None);
            self.lost = self.lost.saturating_add(1);
            self.all_lost = self.all_lost.saturating_add(1);
        }
        Ok(true)
    }

    /// Adds a line, at this reading of the clock (milliseconds since the beginning).
    pub fn tell(&mut self, reading: u64, entry: &impl Entry) {
        self.reading = reading;
        let mut line = std::mem::take(&mut self.kept.spare);
        line.clear();
        self.add(reading, entry, &mut line);
        self.pending.extend_from_slice(line.as_bytes());
        self.pending.push(b'\n');
        if self.is_followed {
            self.fresh.push(line.clone());
        }
        if let Some(path) = entry.event_path() {
            self.keep_event(reading, entry, path.to_string(), &line);
        }
        self.kept.push(line);
        if self.pending.len() >= GATHERED {
            self.flush();
        }
    }

    fn keep_event(&mut self, reading: u64, entry: &impl Entry, path: String, line: &str) {
        let mut json = String::new();
        if self.is_json {
            json.push_str(line);
        } else {
            entry.add_json(self.calendar.now(), reading, &mut json);
        }
        self.events.push_back((path, json));
        self.new_events += 1;
        self.all_events += 1;
        if self.events.len() > KEPT_EVENTS {
            self.events.pop_front();
        }
    }

    /// The last events of the paths that begin so, a line each.
    pub fn events(&self, head: &str) -> String {
        let events = self.events.iter().filter(|(path, _)| path.starts_with(head));
        events.map(|(_, line)| format!("{line}\n")).collect()
    }

    /// The events since this was last asked, each with its path. Of very many the last.
    pub fn take_new_events(&mut self, is_wanted: bool) -> Vec<(String, String)> {
        let count = std::mem::take(&mut self.new_events).min(self.events.len());
        if is_wanted { self.events.range(self.events.len() - count..).cloned().collect() } else { Vec::new() }
    }

    /// So many events there were since the beginning.
    pub fn all_events(&self) -> u64 {
        self.all_events
    }

    /// So many lines were lost by the program that this one has replaced.
    pub fn had_lost(&mut self, lines: u64) {
        self.all_lost = lines;
    }

    /// So many lines were lost since the beginning.
    pub fn all_lost(&self) -> u64 {
        self.all_lost
    }

    fn add(&mut self, reading: u64, entry: &impl Entry, line: &mut String) {
        let time = self.calendar.now();
        if self.is_json { entry.add_json(time, reading, line) } else { entry.add_text(time, reading, line) }
    }

    /// Writes what was gathered, as far as it can be written at once.
    pub fn flush(&mut self) {
        // The rest of a line is written with the next one: what refuses it now would refuse it again and again.
        if self.pending.len() == self.torn {
            return;
        }
        self.look_at_rest();
        let mut head = String::new();
        if self.lost > 0 {
            let lost = Record::new(Class::Remark, "lost").number("lines", self.lost);
            self.add(self.reading, &lost, &mut head);
            head.push('\n');
            self.pending.splice(self.torn..self.torn, head.bytes());
        }
        let (written, _) = self.sink.write(&self.pending);
        self.keep_from(written, self.torn + head.len());
        self.size = if self.torn > 0 { self.sink.size() } else { None };
    }

    /// The rest of a line is of no use to a file that was emptied meanwhile.
    fn look_at_rest(&mut self) {
        if self.size.is_some_and(|size| self.sink.size().is_some_and(|now| now < size)) {
            self.pending.drain(..self.torn);
            self.torn = 0;
            self.lost = self.lost.saturating_add(1);
            self.all_lost = self.all_lost.saturating_add(1);
        }
    }

    /// So much was written. Of what is left the rest of a line is kept; the lines behind it are lost. The gathered lines begin
    /// at `lines`: in front of them stands what tells of lost ones.
    fn keep_from(&mut self, written: usize, lines: usize) {
        let behind = &self.pending[written..];
        let rest = match behind.iter().position(|&byte| byte == b'\n') {
            _ if written < self.torn => self.torn,
            Some(end) if written > 0 && self.pending[written - 1] != b'\n' => written + end + 1,
            _ => written,
        };
        if written > self.torn {
            self.lost = 0;
        }
        let lost = self.pending[rest.max(lines)..].split_inclusive(|&byte| byte == b'\n').count() as u64;
        self.lost = self.lost.saturating_add(lost);
        self.all_lost = self.all_lost.saturating_add(lost);
        self.pending.truncate(rest);
        self.pending.drain(..written);
        self.torn = self.pending.len();
    }

    /// The last lines, the newest last.
    pub fn last(&self, count: usize) -> impl Iterator<Item = &str> {
        let lines = &self.kept.lines;
        lines.iter().skip(lines.len().saturating_sub(count)).map(String::as_str)
    }

    /// The lines since this was last asked, if the log is followed.
    pub fn take_fresh(&mut self) -> Vec<String> {
        std::mem::take(&mut self.fresh)
    }
}

fn open_sink(file: &Path, rotation: Option<Rotation>) -> io::Result<Sink> {
    match rotation {
        Some(rotation) => Sink::turning(file, rotation),
        None => os::append_to(file).map(Sink::file),
    }
}

/// Whether the last line of a file has no end.
fn ends_in_a_line(file: &Path) -> io::Result<bool> {
    if !std::fs::metadata(file)?.is_file() {
        return Ok(false);
    }
    let mut file = File::open(file)?;
    if file.seek(SeekFrom::End(0))? == 0 {
        return Ok(false);
    }
    file.seek(SeekFrom::End(-1))?;
    let mut last = [0];
    file.read_exact(&mut last)?;
    Ok(last != *b"\n")
}

#[cfg(test)]
mod tests {
    use super::*;

    fn x() -> Record {
        Record::new(Class::Remark, "x").text("text", "some words, so that a line has a length")
    }

    #[test]
    fn a_file_that_was_renamed_is_opened_anew() {
        let folder = std::env::temp_dir().join(format!("otp-procs-log-{}", std::process::id()));
        std::fs::create_dir_all(&folder).unwrap();
        let (file, old) = (folder.join("log"), folder.join("log.1"));
        let mut log = Log::open(Some(&file), None, false).unwrap();
        log.tell(0, &Record::new(Class::Remark, "before"));
        std::fs::rename(&file, &old).unwrap();
        log.tell(1, &Record::new(Class::Remark, "between"));
        assert!(log.reopen().unwrap());
        log.tell(2, &Record::new(Class::Remark, "after"));
        log.flush();
        let (old, new) = (std::fs::read_to_string(&old).unwrap(), std::fs::read_to_string(&file).unwrap());
        assert!(old.contains("before") && old.contains("between") && !old.contains("after"), "{old}");
        assert!(new.contains("after") && new.lines().count() == 1, "{new}");
        // What ends in the middle of a line gets an end.
        std::fs::write(&file, "torn").unwrap();
        let mut log = Log::open(Some(&file), None, false).unwrap();
        log.tell(0, &x());
        log.flush();
        assert!(std::fs::read_to_string(&file).unwrap().starts_with("torn\n2"));
        std::fs::remove_dir_all(&folder).unwrap();
        // Where it can't be opened the old one stays.
        assert!(log.reopen().is_err());
        log.tell(3, &x());
        log.flush();
        assert_eq!(log.lost, 0);
        assert!(!Log::open(None, None, false).unwrap().reopen().unwrap());
    }

    #[test]
    fn a_full_disk_loses_lines_alone_and_counts_them() {
        let mut log = Log::open(Some(Path::new("/dev/full")), None, false).unwrap();
        log.is_followed = true;
        for number in 0..3 {
            log.tell(number, &x());
            log.flush();
        }
        assert_eq!((log.lost, log.last(10).count(), log.take_fresh().len()), (3, 3, 3));
    }

    #[test]
    fn what_a_pipe_takes_is_whole_lines_and_the_others_are_counted() {
        let (mut reader, writer) = io::pipe().unwrap();
        os::never_wait(std::os::fd::AsFd::as_fd(&reader)).unwrap();
        let mut log = Log::to(Sink::file(File::from(std::os::fd::OwnedFd::from(writer))), true);
        let (mut text, mut told) = (Vec::new(), 0u64);
        for round in 0..5 {
            // More than the pipe takes, so that a line is written in part.
            for _ in 0..2000 {
                log.tell(round, &x());
                told += 1;
            }
            log.flush();
            assert!(log.lost > 0);
            let _ = reader.read_to_end(&mut text);
        }
        log.tell(9, &x());
        log.flush();
        let _ = reader.read_to_end(&mut text);
        let text = String::from_utf8(text).unwrap();
        let (mut lines, mut lost) = (0, 0);
        for line in text.lines() {
            assert!(line.starts_with("{\"time\":\"") && line.ends_with('}'), "{line}");
            match line.split_once("\"lines\":") {
                Some((_, count)) => lost += count.trim_end_matches('}').parse::<u64>().unwrap(),
                None => lines += 1,
            }
        }
        assert_eq!((lines + lost, log.lost), (told + 1, 0));
    }

    #[test]
    fn what_is_kept_is_bounded_in_bytes_too() {
        let mut log = Log::to(Sink::file(os::append_to(Path::new("/dev/null")).unwrap()), true);
        let said = "x".repeat(8192);
        for _ in 0..2000 {
            log.tell(0, &Said { path: "a", number: 1, line: &said, part: None, is_error: false });
        }
        assert!(log.last(5000).map(str::len).sum::<usize>() <= KEPT_BYTES && log.last(5000).count() > 100);
    }
}
