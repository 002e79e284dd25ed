//! A question to the daemon, which is waited for beside all else.

use crate::client::ended;
use crate::control::socket_in;
use crate::os::{READABLE, Waited};
use std::io::{self, Read, Write};
use std::os::fd::AsRawFd;
use std::os::unix::net::UnixStream;
use std::path::Path;
use std::rc::Rc;

/// So much of an answer is read at once.
const READ: usize = 16 * 1024;

/// A page, as the daemon gives it.
#[derive(Clone, Debug, PartialEq, Eq)]
pub struct Page {
    /// What another page has another of.
    pub mark: String,
    /// For how many milliseconds it is so where nothing happens; 0 is for ever.
    pub lasts: u64,
    /// Its parts.
    pub body: Rc<str>,
}

/// A question that was asked.
#[derive(Debug)]
pub struct Link {
    stream: UnixStream,
    answer: Vec<u8>,
    /// The reading at which it isn't waited for any more.
    pub until: Option<u64>,
}

impl Link {
    /// Asks the daemon of a folder for a page: for the one that differs from this mark, or for any.
    pub fn ask(folder: &Path, mark: Option<&str>, until: Option<u64>) -> Result<Self, String> {
        let nobody = |error: io::Error| match error.kind() {
            io::ErrorKind::NotFound | io::ErrorKind::ConnectionRefused => "no daemon runs there now".to_string(),
            _ => format!("the daemon can't be asked: {error}"),
        };
        let mut stream = UnixStream::connect(socket_in(folder)).map_err(nobody)?;
        stream.set_nonblocking(true).map_err(nobody)?;
        let line = mark.map_or("page parts\n".to_string(), |mark| format!("page parts {mark}\n"));
        // A line has room in any socket; who is turned away is answered before it has asked.
        let _ = stream.write_all(line.as_bytes());
        Ok(Link { stream, answer: Vec::new(), until })
    }

    /// What is waited for.
    pub fn waited(&self) -> Waited {
        Waited::new(self.stream.as_raw_fd(), READABLE)
    }

    /// Reads what there is; the page once it is whole, or why there is none.
    pub fn read(&mut self) -> Option<Result<Page, String>> {
        let mut room = [0; READ];
        match self.stream.read(&mut room) {
            Ok(0) => Some(page_of(&self.answer)),
            Ok(count) => {
                self.answer.extend_from_slice(&room[..count]);
                None
            }
            Err(error) if matches!(error.kind(), io::ErrorKind::WouldBlock | io::ErrorKind::Interrupted) => None,
            // Behind a whole answer that is no fault.
            Err(_) => Some(page_of(&self.answer)),
        }
    }
}

/// The page of a whole answer.
fn page_of(answer: &[u8]) -> Result<Page, String> {
    let cut_off = || "the daemon has ended, or cut its answer off".to_string();
    let (text, _) = ended(answer).ok_or_else(cut_off)?;
    let text = std::str::from_utf8(text).map_err(|_| cut_off())?;
    let (head, text) = text.split_once('\n').ok_or_else(cut_off)?;
    if head != "ok" {
        return Err(text.trim_end().to_string());
    }
    let page = text.split_once('\n').and_then(|(first, body)| {
        let (mark, lasts) = first.split_once(' ')?;
        Some(Page { mark: mark.to_string(), lasts: lasts.parse().ok()?, body: body.into() })
    });
    page.ok_or_else(|| "the daemon is of another version".to_string())
}

#[cfg(test)]
mod tests {
    use super::*;

    #[test]
    fn a_whole_answer_is_a_page_or_says_why_there_is_none() {
        let page = page_of(b"ok\n12-3 500\n<p>\n</p>\nend 0\n").unwrap();
        assert_eq!(page, Page { mark: "12-3".into(), lasts: 500, body: "<p>\n</p>\n".into() });
        assert_eq!(page_of(b"error\nbusy\nend 1\n"), Err("busy".to_string()));
        for cut in ["", "ok\n", "ok\n12-3 500\n<p>\n", "ok\n12-3 500\n<p>\nend"] {
            assert!(page_of(cut.as_bytes()).unwrap_err().contains("cut"), "{cut}");
        }
        assert!(page_of(b"ok\nx\nend 0\n").unwrap_err().contains("another version"));
    }
}
