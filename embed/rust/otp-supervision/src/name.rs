//! Names of children and start words, texts of reasons, and the reasons themselves.

use crate::sys::{RawName, RawText};
use std::fmt;
use std::str::FromStr;

/// The name of a child, of its start word or of a module: 1 to 32 bytes of `a-z A-Z 0-9 _ - .`.
#[derive(Clone, Copy, PartialEq, Eq, PartialOrd, Ord, Hash)]
pub struct Name {
    length: u8,
    bytes: [u8; 32],
}

/// The text of a reason: 1 to 64 bytes from 0x21 to 0x7E, so neither a space nor a line's end.
#[derive(Clone, Copy, PartialEq, Eq, Hash)]
pub struct Text {
    length: u8,
    bytes: [u8; 64],
}

/// A text that is no name, or no text of a reason.
#[derive(Clone, Copy, Debug, PartialEq, Eq)]
#[non_exhaustive]
pub enum BadWord {
    /// It is no [`Name`].
    Name,
    /// It is no [`Text`].
    Text,
    /// It is no [`Reason`].
    Reason,
    /// It is none of the words that are wanted.
    Word,
}

impl fmt::Display for BadWord {
    fn fmt(&self, f: &mut fmt::Formatter<'_>) -> fmt::Result {
        f.write_str(match self {
            BadWord::Name => "a name has 1 to 32 bytes of a-z A-Z 0-9 _ - .",
            BadWord::Text => "a text has 1 to 64 bytes from 0x21 to 0x7E",
            BadWord::Reason => "a reason is normal, shutdown, kill, killed, noproc, shutdown:TEXT or error:TEXT",
            BadWord::Word => "it is none of the words that may stand here",
        })
    }
}

impl std::error::Error for BadWord {}

/// The bytes that a length says, as text. Whoever made them has checked that they are ASCII.
fn text_of(bytes: &[u8], length: u8) -> &str {
    let end = usize::from(length).min(bytes.len());
    std::str::from_utf8(&bytes[..end]).unwrap_or("")
}

impl RawName {
    /// The name as text.
    pub(crate) fn as_str(&self) -> &str {
        text_of(&self.bytes, self.len)
    }
}

impl Name {
    /// A name, if the text is one.
    ///
    /// # Errors
    /// [`BadWord::Name`].
    pub fn new(text: &str) -> Result<Self, BadWord> {
        let is_of_name = |b: &u8| b.is_ascii_alphanumeric() || b"_-.".contains(b);
        if text.is_empty() || text.len() > 32 || !text.as_bytes().iter().all(is_of_name) {
            return Err(BadWord::Name);
        }
        let mut bytes = [0; 32];
        bytes[..text.len()].copy_from_slice(text.as_bytes());
        Ok(Name { length: text.len() as u8, bytes })
    }

    /// The name as text.
    pub fn as_str(&self) -> &str {
        text_of(&self.bytes, self.length)
    }

    pub(crate) fn to_raw(self) -> RawName {
        RawName { len: self.length, bytes: self.bytes }
    }

    /// The name of a length that isn't 0.
    #[inline]
    pub(crate) fn of_raw(raw: &RawName) -> Name {
        Name { length: raw.len, bytes: raw.bytes }
    }

    /// None where the length is 0.
    #[inline]
    pub(crate) fn from_raw(raw: &RawName) -> Option<Name> {
        (raw.len > 0).then(|| Name::of_raw(raw))
    }
}

impl FromStr for Name {
    type Err = BadWord;

    fn from_str(text: &str) -> Result<Self, BadWord> {
        Name::new(text)
    }
}

impl TryFrom<&str> for Name {
    type Error = BadWord;

    fn try_from(text: &str) -> Result<Self, BadWord> {
        Name::new(text)
    }
}

impl AsRef<str> for Name {
    fn as_ref(&self) -> &str {
        self.as_str()
    }
}

impl PartialEq<str> for Name {
    fn eq(&self, text: &str) -> bool {
        self.as_str() == text
    }
}

impl PartialEq<&str> for Name {
    fn eq(&self, text: &&str) -> bool {
        self.as_str() == *text
    }
}

impl PartialEq<Name> for str {
    fn eq(&self, name: &Name) -> bool {
        self == name.as_str()
    }
}

impl PartialEq<Name> for &str {
    fn eq(&self, name: &Name) -> bool {
        *self == name.as_str()
    }
}

impl fmt::Display for Name {
    fn fmt(&self, f: &mut fmt::Formatter<'_>) -> fmt::Result {
        f.pad(self.as_str())
    }
}

impl fmt::Debug for Name {
    fn fmt(&self, f: &mut fmt::Formatter<'_>) -> fmt::Result {
        write!(f, "Name({:?})", self.as_str())
    }
}

impl Text {
    /// A text, if it is one of a reason.
    ///
    /// # Errors
    /// [`BadWord::Text`].
    pub fn new(text: &str) -> Result<Self, BadWord> {
        if text.is_empty() || text.len() > 64 || !text.bytes().all(|b| b.is_ascii_graphic()) {
            return Err(BadWord::Text);
        }
        let mut bytes = [0; 64];
        bytes[..text.len()].copy_from_slice(text.as_bytes());
        Ok(Text { length: text.len() as u8, bytes })
    }

    /// The text.
    pub fn as_str(&self) -> &str {
        text_of(&self.bytes, self.length)
    }

    #[inline]
    fn as_bytes(&self) -> &[u8] {
        &self.bytes[..usize::from(self.length).min(self.bytes.len())]
    }

    pub(crate) fn from_raw(raw: &RawText) -> Text {
        Text { length: raw.len, bytes: raw.bytes }
    }
}

impl AsRef<str> for Text {
    fn as_ref(&self) -> &str {
        self.as_str()
    }
}

impl PartialEq<str> for Text {
    fn eq(&self, text: &str) -> bool {
        self.as_str() == text
    }
}

impl PartialEq<&str> for Text {
    fn eq(&self, text: &&str) -> bool {
        self.as_str() == *text
    }
}

impl TryFrom<&str> for Text {
    type Error = BadWord;

    fn try_from(text: &str) -> Result<Self, BadWord> {
        Text::new(text)
    }
}

impl FromStr for Text {
    type Err = BadWord;

    fn from_str(text: &str) -> Result<Self, BadWord> {
        Text::new(text)
    }
}

impl fmt::Display for Text {
    fn fmt(&self, f: &mut fmt::Formatter<'_>) -> fmt::Result {
        f.pad(self.as_str())
    }
}

impl fmt::Debug for Text {
    fn fmt(&self, f: &mut fmt::Formatter<'_>) -> fmt::Result {
        write!(f, "Text({:?})", self.as_str())
    }
}

/// Why a process ended, or didn't start. Which of them restart a transient child says OTP's manual ("Supervisor
/// Behaviour", "Child Specification"): all but `Normal`, `Shutdown` and `ShutdownWith`.
#[derive(Clone, Copy, Debug, PartialEq, Eq, Hash)]
#[non_exhaustive]
pub enum Reason {
    /// It ended by itself, as it was meant to.
    Normal,
    /// It was told to shut down, and did.
    Shutdown,
    /// It was told to shut down, and did, with a text.
    ShutdownWith(Text),
    /// It ended with the reason `kill`, without having been killed.
    Kill,
    /// It was killed.
    Killed,
    /// There was no such process.
    NoProc,
    /// Any other end.
    Error(Text),
}

impl Reason {
    /// Whether it is an end that a transient child isn't restarted for.
    pub fn is_quiet(&self) -> bool {
        matches!(self, Reason::Normal | Reason::Shutdown | Reason::ShutdownWith(_))
    }

    /// An error with this text, cut to what a [`Text`] may have: other bytes become `_`, and only the first 64 stay.
    pub fn error(text: &str) -> Reason {
        let lawful = |b: u8| {
            if b.is_ascii_graphic() { char::from(b) } else { '_' }
        };
        let text: String = text.bytes().take(64).map(lawful).collect();
        match Text::new(&text) {
            Ok(text) => Reason::Error(text),
            Err(_) => Reason::Error(Text { length: 1, bytes: [b'_'; 64] }),
        }
    }

    /// The number that stands for it in `otp.h`.
    #[doc(hidden)]
    pub fn number(&self) -> u32 {
        self.as_raw().0
    }

    /// The number that stands for it, and its text.
    #[inline]
    pub(crate) fn as_raw(&self) -> (u32, &[u8]) {
        match self {
            Reason::Normal => (1, b""),
            Reason::Shutdown => (2, b""),
            Reason::ShutdownWith(text) => (3, text.as_bytes()),
            Reason::Kill => (4, b""),
            Reason::Killed => (5, b""),
            Reason::NoProc => (6, b""),
            Reason::Error(text) => (7, text.as_bytes()),
        }
    }

    pub(crate) fn from_raw(number: u32, text: &RawText) -> Option<Reason> {
        Some(match number {
            1 => Reason::Normal,
            2 => Reason::Shutdown,
            3 => Reason::ShutdownWith(Text::from_raw(text)),
            4 => Reason::Kill,
            5 => Reason::Killed,
            6 => Reason::NoProc,
            7 => Reason::Error(Text::from_raw(text)),
            _ => return None,
        })
    }
}

impl fmt::Display for Reason {
    fn fmt(&self, f: &mut fmt::Formatter<'_>) -> fmt::Result {
        match self {
            Reason::Normal => f.write_str("normal"),
            Reason::Shutdown => f.write_str("shutdown"),
            Reason::ShutdownWith(text) => write!(f, "shutdown:{text}"),
            Reason::Kill => f.write_str("kill"),
            Reason::Killed => f.write_str("killed"),
            Reason::NoProc => f.write_str("noproc"),
            Reason::Error(text) => write!(f, "error:{text}"),
        }
    }
}

/// So a thread or a task may return one as its error.
impl std::error::Error for Reason {}

impl FromStr for Reason {
    type Err = BadWord;

    fn from_str(text: &str) -> Result<Self, BadWord> {
        match text {
            "normal" => return Ok(Reason::Normal),
            "shutdown" => return Ok(Reason::Shutdown),
            "kill" => return Ok(Reason::Kill),
            "killed" => return Ok(Reason::Killed),
            "noproc" => return Ok(Reason::NoProc),
            _ => {}
        }
        if let Some(text) = text.strip_prefix("shutdown:") {
            return Text::new(text).map(Reason::ShutdownWith);
        }
        let text = text.strip_prefix("error:").ok_or(BadWord::Reason)?;
        Text::new(text).map(Reason::Error)
    }
}

#[cfg(test)]
mod tests {
    use super::*;

    #[test]
    fn names_and_texts_have_their_limits() {
        assert_eq!(Name::new(&"x".repeat(32)).map(|n| n.as_str().len()), Ok(32));
        for bad in ["", "a b", "a/b", "é", &"x".repeat(33)] {
            assert_eq!(Name::new(bad), Err(BadWord::Name), "{bad}");
        }
        assert_eq!(Text::new(&"!".repeat(64)).map(|t| t.as_str().len()), Ok(64));
        for bad in ["", "a b", "a\n", "é", &"x".repeat(65)] {
            assert_eq!(Text::new(bad), Err(BadWord::Text), "{bad}");
        }
    }

    #[test]
    fn a_name_compares_with_a_text() {
        let name = Name::try_from("web").unwrap();
        assert!(name == "web" && name != *"db" && *"web" == name && name.as_ref() == "web");
        assert_eq!("web", name);
    }

    #[test]
    fn a_reason_is_read_as_it_is_written() {
        for text in ["normal", "shutdown", "shutdown:x", "kill", "killed", "noproc", "error:x:y"] {
            assert_eq!(text.parse::<Reason>().map(|r| r.to_string()).as_deref(), Ok(text));
        }
        for bad in ["", "error", "error:", "shutdown:a b", "Normal", "normal:x"] {
            assert!(bad.parse::<Reason>().is_err(), "{bad}");
        }
    }

    #[test]
    fn any_text_makes_an_error() {
        assert_eq!(Reason::error("a b").to_string(), "error:a_b");
        assert_eq!(Reason::error("").to_string(), "error:_");
        assert_eq!(Reason::error(&"é".repeat(100)).to_string(), format!("error:{}", "_".repeat(64)));
    }
}
