//! HTML as it is written: markup stands in this program, and whatever comes from elsewhere is text, which is escaped.

use crate::record::written;
use crate::status::span;
use std::fmt::Display;
use std::time::{Duration, UNIX_EPOCH};

/// Readings of the daemon's clock, and where they are on the calendar.
#[derive(Clone, Copy, Debug, Default, PartialEq, Eq)]
pub struct Times {
    /// The reading now.
    pub now: u64,
    /// The milliseconds from 1970 to reading 0.
    pub base: u64,
}

/// Markup.
#[derive(Debug)]
pub struct Html {
    out: String,
    times: Times,
}

impl Html {
    /// None yet. Times are told as of this one.
    pub fn new(times: Times) -> Self {
        Html { out: String::new(), times }
    }

    /// Adds markup.
    pub fn raw(&mut self, markup: &'static str) -> &mut Self {
        self.out.push_str(markup);
        self
    }

    /// Adds a text, also within the quotes of an attribute.
    pub fn text(&mut self, text: &str) -> &mut Self {
        add_escaped(text, &mut self.out);
        self
    }

    /// Adds a number, or whatever else can be shown, as a text.
    pub fn show(&mut self, shown: impl Display) -> &mut Self {
        self.text(&shown.to_string())
    }

    /// Adds how far a reading is from now. A script can tell it anew.
    pub fn time(&mut self, reading: u64) -> &mut Self {
        let at = written(UNIX_EPOCH + Duration::from_millis(self.times.base.saturating_add(reading)));
        self.raw("<time datetime=\"").text(&at).raw("\">");
        let away = span(self.times.now.abs_diff(reading));
        self.text(&away).raw("</time>")
    }

    /// What was written.
    pub fn done(self) -> String {
        self.out
    }
}

/// Adds a text so that it shows as itself, and is on one line. What can't be seen gets a sign, as do characters that turn the
/// direction of those behind them.
fn add_escaped(text: &str, out: &mut String) {
    let mut rest = text;
    // Most characters stand for themselves, and are added together.
    while let Some(at) = rest.bytes().position(|byte| !is_plain(byte)) {
        let (plain, behind) = rest.split_at(at);
        out.push_str(plain);
        let mut chars = behind.chars();
        if let Some(c) = chars.next() {
            add_one(c, out);
        }
        rest = chars.as_str();
    }
    out.push_str(rest);
}

fn is_plain(byte: u8) -> bool {
    matches!(byte, b' '..=b'~') && !matches!(byte, b'&' | b'<' | b'>' | b'"' | b'\'')
}

fn add_one(c: char, out: &mut String) {
    match c {
        '&' => out.push_str("&amp;"),
        '<' => out.push_str("&lt;"),
        '>' => out.push_str("&gt;"),
        '"' => out.push_str("&quot;"),
        '\'' => out.push_str("&#39;"),
        '\n' => out.push_str("&#10;"),
        '\t' => out.push_str("&#9;"),
        c if c < ' ' => out.extend(char::from_u32(0x2400 + c as u32)),
        '\u{7F}' => out.push('\u{2421}'),
        c if is_hidden(c) => out.push('\u{FFFD}'),
        c => out.push(c),
    }
}

/// Controls, marks of direction, and ends of lines that aren't `\n`.
fn is_hidden(c: char) -> bool {
    c.is_control()
        || matches!(c, '\u{61C}' | '\u{200B}'..='\u{200F}' | '\u{2028}'..='\u{202E}' | '\u{2060}'..='\u{206F}' | '\u{FEFF}')
}

#[cfg(test)]
mod tests {
    use super::*;

    fn escaped(text: &str) -> String {
        let mut html = Html::new(Times::default());
        html.text(text);
        html.done()
    }

    #[test]
    fn a_text_shows_as_itself_and_is_no_markup() {
        assert_eq!(escaped("</pre><b x='\"'>&amp;"), "&lt;/pre&gt;&lt;b x=&#39;&quot;&#39;&gt;&amp;amp;");
        assert_eq!(escaped("é €\t1\r\n\u{1b}[0m\0\u{7f}"), "é €&#9;1␍&#10;␛[0m␀␡");
        assert_eq!(escaped("a\u{202e}b\u{85}\u{2028}\u{feff}"), "a\u{fffd}b\u{fffd}\u{fffd}\u{fffd}");
        for c in '\0'..='\u{FFFF}' {
            let shown = escaped(&c.to_string());
            assert!(
                !shown.contains(['<', '>', '"', '\'', '\n', '\r']) && !shown.chars().any(char::is_control),
                "{c:?}"
            );
            assert!(!shown.contains('&') || shown.ends_with(';'), "{c:?}");
        }
    }

    #[test]
    fn a_time_is_told_as_it_is_from_now_and_on_the_calendar() {
        let mut html = Html::new(Times { now: 62_000, base: 1_000 });
        html.time(1_000).time(63_500);
        let wanted = "<time datetime=\"1970-01-01T00:00:02.000Z\">1 min 1 s</time><time datetime=\"1970-01-01T00:01:04.500Z\">1.5 s</time>";
        assert_eq!(html.done(), wanted);
    }
}
