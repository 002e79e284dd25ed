//! `ctl`: finds a daemon, asks it for something, and prints its answer.

use crate::control::{socket_in, usual_folders};
use crate::os;
use std::fmt;
use std::io::{self, Read, Write};
use std::os::unix::fs::MetadataExt;
use std::os::unix::net::UnixStream;
use std::path::{Path, PathBuf};
use std::time::{Duration, Instant};

/// Why there is no answer.
#[derive(Debug)]
pub enum NoAnswer {
    /// No daemon listens in these folders, and why not.
    Nobody(Vec<(PathBuf, io::Error)>),
    /// Daemons listen in several of the usual ones.
    Several(Vec<PathBuf>),
    /// It didn't come in this time.
    Late(Duration),
    /// It has no end.
    CutOff,
    /// It can't be read, or printed.
    System(io::Error),
}

fn said_of(folder: &Path, error: &io::Error) -> String {
    let name = folder.display();
    match error.kind() {
        io::ErrorKind::NotFound => format!("{name} has no socket"),
        io::ErrorKind::ConnectionRefused => format!("in {name} nobody listens any more"),
        io::ErrorKind::PermissionDenied => format!("{name} may not be entered; act as the daemon's user"),
        _ => format!("{name}: {error}"),
    }
}

impl fmt::Display for NoAnswer {
    fn fmt(&self, f: &mut fmt::Formatter<'_>) -> fmt::Result {
        match self {
            NoAnswer::Nobody(tried) => {
                let tried: Vec<String> = tried.iter().map(|(folder, error)| said_of(folder, error)).collect();
                let tried = tried.join("; ");
                write!(f, "no daemon: {tried}; give --control or OTP_CONTROL the folder that its run had")
            }
            NoAnswer::Several(folders) => {
                let folders: Vec<String> = folders.iter().map(|folder| folder.display().to_string()).collect();
                write!(f, "a daemon runs in each of {}; say which by --control", folders.join(" and "))
            }
            NoAnswer::Late(within) => write!(
                f,
                "no answer within {} s: the daemon stands still, or isn't done; what was asked isn't taken back, and --within TIME \
                 waits longer",
                within.as_secs_f64()
            ),
            NoAnswer::CutOff => f.write_str(
                "the answer was cut off: the daemon was killed, or hasn't waited for one who didn't read; ask again",
            ),
            NoAnswer::System(error) => write!(f, "the answer can't be read or printed: {error}"),
        }
    }
}

impl std::error::Error for NoAnswer {}

/// The one usual folder that has a daemon.
pub fn folder_of_daemon() -> Result<PathBuf, NoAnswer> {
    connect(None).map(|(folder, _)| folder)
}

/// A connection to the daemon of this folder, or else of the one usual folder that has one.
fn connect(folder: Option<&Path>) -> Result<(PathBuf, UnixStream), NoAnswer> {
    let is_named = folder.is_some();
    let folders = folder.map_or_else(usual_folders, |folder| vec![folder.to_path_buf()]);
    let (mut found, mut tried) = (Vec::new(), Vec::new());
    for folder in folders {
        let may_ask = if is_named { Ok(()) } else { own(&folder) };
        match may_ask.and_then(|()| UnixStream::connect(socket_in(&folder))) {
            Ok(stream) => found.push((folder, stream)),
            Err(error) => tried.push((folder, error)),
        }
    }
    if found.len() > 1 {
        return Err(NoAnswer::Several(found.into_iter().map(|(folder, _)| folder).collect()));
    }
    found.pop().ok_or(NoAnswer::Nobody(tried))
}

/// Below `/tmp` anybody may have made a folder with this name, and listen there.
fn own(folder: &Path) -> io::Result<()> {
    if folder.metadata()?.uid() == os::own_user() { Ok(()) } else { Err(io::ErrorKind::PermissionDenied.into()) }
}

/// An answer as it comes.
struct Answer {
    stream: UnixStream,
    until: Option<(Instant, Duration)>,
    /// What was read and not taken.
    rest: Vec<u8>,
}

impl Answer {
    /// Reads what there is; nothing at the end.
    fn read(&mut self) -> Result<bool, NoAnswer> {
        if let Some((until, within)) = self.until {
            let left = until.saturating_duration_since(Instant::now());
            if left.is_zero() {
                return Err(NoAnswer::Late(within));
            }
            self.stream.set_read_timeout(Some(left)).map_err(NoAnswer::System)?;
        } else {
            self.stream.set_read_timeout(None).map_err(NoAnswer::System)?;
        }
        let mut room = [0; 8192];
        match self.stream.read(&mut room) {
            Ok(count) => {
                self.rest.extend_from_slice(&room[..count]);
                Ok(count > 0)
            }
            Err(error) if error.kind() == io::ErrorKind::Interrupted => Ok(true),
            Err(error) if error.kind() == io::ErrorKind::WouldBlock => {
                Err(self.until.map_or(NoAnswer::CutOff, |(_, within)| NoAnswer::Late(within)))
            }
            Err(error) if error.kind() == io::ErrorKind::ConnectionReset => Ok(false),
            Err(error) => Err(NoAnswer::System(error)),
        }
    }

    /// The next line, with its end.
    fn line(&mut self) -> Result<Vec<u8>, NoAnswer> {
        loop {
            if let Some(end) = self.rest.iter().position(|&byte| byte == b'\n') {
                return Ok(self.rest.drain(..=end).collect());
            }
            if !self.read()? {
                return Err(NoAnswer::CutOff);
            }
        }
    }

    /// The whole lines that are there, but for one that may be the end.
    fn take_lines(&mut self) -> Vec<u8> {
        let mut end = self.rest.iter().rposition(|&byte| byte == b'\n').map_or(0, |end| end + 1);
        if let Some(text) = without_end(&self.rest[..end]) {
            end = text.len();
        }
        self.rest.drain(..end).collect()
    }
}

/// A whole answer's text, which stands in front of the line that ends it.
fn without_end(answer: &[u8]) -> Option<&[u8]> {
    ended(answer).map(|(text, _)| text)
}

/// The text of an answer, with the exit status.
pub fn ended(answer: &[u8]) -> Option<(&[u8], u8)> {
    let line = answer.strip_suffix(b"\n")?;
    let at = line.iter().rposition(|&byte| byte == b'\n').map_or(0, |end| end + 1);
    let status = std::str::from_utf8(line[at..].strip_prefix(b"end ")?).ok()?.parse().ok()?;
    Some((&answer[..at], status))
}

/// Sends a request, and prints its answer: one that goes on as it comes, any other once it is whole, so that the daemon never waits
/// for who reads this. The exit status is the answer.
pub fn ask(folder: Option<&Path>, line: &str, goes_on: bool, within: Option<Duration>) -> Result<u8, NoAnswer> {
    let (_, mut stream) = connect(folder)?;
    let until = within.map(|within| (Instant::now() + within, within));
    // Who is turned away is answered before it has asked.
    let _ = stream.write_all(format!("{line}\n").as_bytes());
    let mut answer = Answer { stream, until, rest: Vec::new() };
    let mut head = answer.line()?;
    while head == b"wait\n" {
        let why = answer.line()?;
        let _ = io::stderr().write_all(&[b"otp-procs: ", why.as_slice()].concat());
        head = answer.line()?;
    }
    let is_ok = head == b"ok\n";
    if is_ok && goes_on {
        answer.until = None;
    }
    loop {
        if is_ok && goes_on && !print(&answer.take_lines())? {
            return Ok(0);
        }
        if !answer.read()? {
            break;
        }
    }
    let whole = ended(&answer.rest);
    let text = whole.map_or(answer.rest.as_slice(), |(text, _)| text);
    if is_ok {
        print(text)?;
    } else {
        let _ = io::stderr().write_all(&[b"otp-procs: ", text].concat());
    }
    whole.map(|(_, status)| status).ok_or(NoAnswer::CutOff)
}

/// Prints a text; whether somebody reads on.
fn print(text: &[u8]) -> Result<bool, NoAnswer> {
    let mut out = io::stdout();
    match out.write_all(text).and_then(|()| out.flush()) {
        Ok(()) => Ok(true),
        Err(error) if error.kind() == io::ErrorKind::BrokenPipe => Ok(false),
        Err(error) => Err(NoAnswer::System(error)),
    }
}
