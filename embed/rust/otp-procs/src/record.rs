//! A line of the log before it is written, as text or as JSON.

use std::fmt::Write;
use std::time::{SystemTime, UNIX_EPOCH};

/// Behind a piece of a line that goes on with the next one, in a log for people.
const GOES_ON: &str = " ..";

/// What a line is about.
#[derive(Clone, Copy, Debug, PartialEq, Eq)]
pub enum Class {
    /// The tree has ordered something.
    Order,
    /// Something has happened that the tree is told.
    Event,
    /// Anything else.
    Remark,
}

impl Class {
    fn as_str(self) -> &'static str {
        match self {
            Class::Order => "order",
            Class::Event => "event",
            Class::Remark => "remark",
        }
    }
}

#[derive(Clone, Debug, PartialEq, Eq)]
enum Field {
    Text(String),
    Number(u64),
}

/// A line before it is written.
#[derive(Clone, Debug, PartialEq, Eq)]
pub struct Record {
    class: Class,
    what: &'static str,
    fields: Vec<(&'static str, Field)>,
}

impl Record {
    /// A line of this class and kind.
    pub fn new(class: Class, what: &'static str) -> Self {
        Record { class, what, fields: Vec::new() }
    }

    /// With a text.
    pub fn text(mut self, key: &'static str, text: impl Into<String>) -> Self {
        self.fields.push((key, Field::Text(text.into())));
        self
    }

    /// With a number.
    pub fn number(mut self, key: &'static str, number: u64) -> Self {
        self.fields.push((key, Field::Number(number)));
        self
    }

    /// With a text, if there is one.
    pub fn maybe(self, key: &'static str, text: Option<impl Into<String>>) -> Self {
        match text {
            Some(text) => self.text(key, text),
            None => self,
        }
    }
}

/// What can be written into the log.
pub trait Entry {
    /// For people: the time, seconds since the beginning, what, and the fields. What says itself what it is stands alone.
    fn add_text(&self, time: &str, reading: u64, line: &mut String);
    /// For machines: an object on one line.
    fn add_json(&self, time: &str, reading: u64, line: &mut String);
    /// The path that it is about, if it is an event, an order or a remark, and not what a process says.
    fn event_path(&self) -> Option<&str>;
}

fn begin_text(time: &str, reading: u64, what: &str, line: &mut String) {
    let _ = write!(line, "{time} {:>4}.{:03} {what:<5}", reading / 1000, reading % 1000);
}

fn begin_json(time: &str, reading: u64, class: Class, what: &str, line: &mut String) {
    let _ = write!(line, "{{\"time\":\"{time}\",\"ms\":{reading},\"{}\":\"{what}\"", class.as_str());
}

impl Entry for Record {
    fn add_text(&self, time: &str, reading: u64, line: &mut String) {
        begin_text(time, reading, self.what, line);
        for (key, field) in &self.fields {
            let before = match (*key, field) {
                ("supervisor" | "from_text" | "tree_text", _) => continue,
                ("path", Field::Text(text)) if text.is_empty() => continue,
                ("path" | "reason" | "ended" | "answer" | "line", Field::Text(_)) => " ",
                ("cause" | "text", Field::Text(_)) => ": ",
                ("number", Field::Number(_)) => " #",
                (key, _) => {
                    let _ = write!(line, " {}", key.strip_suffix("_ms").unwrap_or(key));
                    " "
                }
            };
            line.push_str(before);
            match field {
                Field::Text(text) => add_plain(text, line),
                Field::Number(number) => {
                    let unit = if key.ends_with("_ms") { " ms" } else { "" };
                    let _ = write!(line, "{number}{unit}");
                }
            }
        }
        line.truncate(line.trim_end().len());
    }

    fn add_json(&self, time: &str, reading: u64, line: &mut String) {
        begin_json(time, reading, self.class, self.what, line);
        for (key, field) in &self.fields {
            let _ = write!(line, ",\"{key}\":");
            match field {
                Field::Text(text) => add_quoted(text, line),
                Field::Number(number) => drop(write!(line, "{number}")),
            }
        }
        line.push('}');
    }

    fn event_path(&self) -> Option<&str> {
        let path = self.fields.iter().find_map(|(key, field)| match (*key, field) {
            ("path", Field::Text(path)) => Some(path.as_str()),
            _ => None,
        });
        Some(path.unwrap_or_default())
    }
}

/// A line that a process has written, or a piece of one. There may be very many, so that nothing of it is copied.
#[derive(Clone, Copy, Debug)]
pub struct Said<'a> {
    /// The path of the process.
    pub path: &'a str,
    /// Its number.
    pub number: u64,
    /// The line.
    pub line: &'a str,
    /// The number of the piece, if the line goes on with the next one.
    pub part: Option<u64>,
    /// It came by its errors, which go apart from its output.
    pub is_error: bool,
}

impl Entry for Said<'_> {
    fn add_text(&self, time: &str, reading: u64, line: &mut String) {
        begin_text(time, reading, if self.is_error { "errs" } else { "says" }, line);
        let _ = write!(line, " {} #{} ", self.path, self.number);
        add_plain(self.line, line);
        line.truncate(line.trim_end().len());
        line.push_str(if self.part.is_some() { GOES_ON } else { "" });
    }

    fn add_json(&self, time: &str, reading: u64, line: &mut String) {
        begin_json(time, reading, Class::Remark, "says", line);
        line.push_str(",\"path\":");
        add_quoted(self.path, line);
        let _ = write!(line, ",\"number\":{},\"line\":", self.number);
        add_quoted(self.line, line);
        if let Some(part) = self.part {
            let _ = write!(line, ",\"part\":{part}");
        }
        if self.is_error {
            line.push_str(",\"stream\":\"errors\"");
        }
        line.push('}');
    }

    fn event_path(&self) -> Option<&str> {
        None
    }
}

/// Whether a text stands for itself; most do.
fn is_plain(text: &str) -> bool {
    text.bytes().all(|byte| (0x20..0x7F).contains(&byte) && byte != b'"' && byte != b'\\')
}

/// Adds a text without control characters.
fn add_plain(text: &str, line: &mut String) {
    if is_plain(text) {
        line.push_str(text);
        return;
    }
    for c in text.chars() {
        if c.is_control() { line.extend(c.escape_default()) } else { line.push(c) }
    }
}

/// Adds a JSON string.
fn add_quoted(text: &str, line: &mut String) {
    line.push('"');
    if is_plain(text) {
        line.push_str(text);
    } else {
        for c in text.chars() {
            match c {
                '"' | '\\' => line.extend(['\\', c]),
                c if c.is_control() => drop(write!(line, "\\u{:04x}", c as u32)),
                c => line.push(c),
            }
        }
    }
    line.push('"');
}

/// A JSON string.
pub fn quoted(text: &str) -> String {
    let mut line = String::new();
    add_quoted(text, &mut line);
    line
}

/// The time on the calendar, whose text is made anew once a millisecond at the most.
#[derive(Debug, Default)]
pub struct Calendar {
    milliseconds: u128,
    text: String,
}

impl Calendar {
    /// The time now, as `2026-11-26T14:02:03.123Z`.
    pub fn now(&mut self) -> &str {
        let now = SystemTime::now();
        let milliseconds = now.duration_since(UNIX_EPOCH).unwrap_or_default().as_millis();
        if self.text.is_empty() || self.milliseconds != milliseconds {
            *self = Calendar { milliseconds, text: written(now) };
        }
        &self.text
    }
}

/// A time as `2026-11-26T14:02:03.123Z`.
pub fn written(time: SystemTime) -> String {
    let since = time.duration_since(UNIX_EPOCH).unwrap_or_default();
    let (seconds, milliseconds) = (since.as_secs(), since.subsec_millis());
    // The days are counted from 1 March of the year 0, so that a leap day ends a year.
    let days = seconds / 86_400 + 719_468;
    let (era, day) = (days / 146_097, days % 146_097);
    let year = (day - day / 1460 + day / 36_524 - day / 146_096) / 365;
    let day = day - (365 * year + year / 4 - year / 100);
    let month = (5 * day + 2) / 153;
    let (day, month) = (day - (153 * month + 2) / 5 + 1, if month < 10 { month + 3 } else { month - 9 });
    let year = era * 400 + year + u64::from(month <= 2);
    let (hour, minute, second) = (seconds / 3600 % 24, seconds / 60 % 60, seconds % 60);
    format!("{year:04}-{month:02}-{day:02}T{hour:02}:{minute:02}:{second:02}.{milliseconds:03}Z")
}

#[cfg(test)]
mod tests {
    use super::*;
    use std::time::Duration;

    #[test]
    fn times_are_those_of_the_calendar() {
        for (seconds, text) in [
            (0, "1970-01-01T00:00:00.000Z"),
            (951_782_399, "2000-02-28T23:59:59.000Z"),
            (951_782_400, "2000-02-29T00:00:00.000Z"),
            (951_868_800, "2000-03-01T00:00:00.000Z"),
            (1_735_689_599, "2024-12-31T23:59:59.000Z"),
            (4_107_542_400, "2100-03-01T00:00:00.000Z"),
        ] {
            assert_eq!(written(UNIX_EPOCH + Duration::from_secs(seconds)), text);
        }
    }

    fn forms_of(entry: &impl Entry, reading: u64) -> (String, String) {
        let (mut text, mut json) = (String::new(), String::new());
        entry.add_text("T", reading, &mut text);
        entry.add_json("T", reading, &mut json);
        (text, json)
    }

    #[test]
    fn a_line_has_both_forms() {
        let record = Record::new(Class::Order, "start").text("path", "pool/a").number("number", 5).number("pid", 9);
        let json = "{\"time\":\"T\",\"ms\":1204,\"order\":\"start\",\"path\":\"pool/a\",\"number\":5,\"pid\":9}";
        assert_eq!(forms_of(&record, 1204), ("T    1.204 start pool/a #5 pid 9".into(), json.into()));
        let record = Record::new(Class::Remark, "x").text("why", "a\"\n\\b").number("after_ms", 3).text("text", "t");
        let json =
            "{\"time\":\"T\",\"ms\":0,\"remark\":\"x\",\"why\":\"a\\\"\\u000a\\\\b\",\"after_ms\":3,\"text\":\"t\"}";
        assert_eq!(forms_of(&record, 0), ("T    0.000 x     why a\"\\n\\b after 3 ms: t".into(), json.into()));
    }

    #[test]
    fn what_a_process_says_is_written_as_other_lines_are() {
        for line in ["", "plain", "é \u{1b}[0m \"quoted\"", "tail  "] {
            let said = Said { path: "a", number: 3, line, part: None, is_error: false };
            let record = Record::new(Class::Remark, "says").text("path", "a").number("number", 3).text("line", line);
            assert_eq!(forms_of(&said, 7), forms_of(&record, 7));
        }
        let (text, json) = forms_of(&Said { path: "a", number: 3, line: "x", part: Some(2), is_error: false }, 7);
        assert_eq!(text, "T    0.007 says  a #3 x ..");
        assert!(json.ends_with(",\"line\":\"x\",\"part\":2}"), "{json}");
        let (text, json) = forms_of(&Said { path: "a", number: 3, line: "x", part: None, is_error: true }, 7);
        assert_eq!(text, "T    0.007 errs  a #3 x");
        assert!(json.contains("\"remark\":\"says\"") && json.ends_with(",\"stream\":\"errors\"}"), "{json}");
    }
}
