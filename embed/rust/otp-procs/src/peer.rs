//! A client of the control socket: its request, and its answer as it is read.
//!
//! A client sends one line. It gets `ok` or `error`, text, and at last `end` with its exit status: without that line the answer
//! was cut off. Before that it may get `wait`, and a line that says why. A request by HTTP is answered by HTTP.

use crate::control::{Answered, Spoken};
use crate::http::{self, Head, Status};
use crate::os::{READABLE, WRITABLE, Waited};
use std::io::{self, Read, Write};
use std::os::fd::{AsRawFd, RawFd};
use std::os::unix::net::UnixStream;

/// A client has so many milliseconds to say what it wants, and between two reads of its answer.
pub const PATIENCE: u64 = 5_000;
/// A request is no longer than this.
const LONGEST: usize = 1024;
/// Whoever follows the log and leaves so many bytes unread is cut off.
const UNREAD: usize = 1024 * 1024;

/// What a client is about.
#[derive(Clone, Copy, Debug, PartialEq, Eq)]
pub enum Stage {
    /// It hasn't said what it wants.
    Asking,
    /// It waits for its answer.
    Waiting,
    /// It gets each new line of the log.
    Following,
    /// It has its whole answer to read.
    Leaving,
}

/// What a client follows.
#[derive(Clone, Debug, PartialEq, Eq)]
pub enum Follows {
    /// Each new line of the log.
    Log,
    /// What the process of this path writes.
    Process(String),
    /// The events of the paths that begin so.
    Events(String),
}

/// A client.
#[derive(Debug)]
pub struct Peer {
    /// Its number.
    pub token: u64,
    /// What it is about.
    pub stage: Stage,
    /// What it follows, if it does.
    pub follows: Option<Follows>,
    stream: UnixStream,
    input: Vec<u8>,
    output: Vec<u8>,
    /// The reading at which it is cut off.
    until: Option<u64>,
    /// It says nothing more.
    is_silent: bool,
    /// All places are taken: why nothing but `shutdown` is taken of it.
    busy: Option<String>,
    speaks: Speaks,
}

/// How a client speaks, and is answered.
#[derive(Clone, Copy, Debug, PartialEq, Eq)]
enum Speaks {
    /// By lines.
    Lines,
    /// By HTTP.
    Http,
    /// By HTTP, and it wants the head of its answer alone.
    HttpHead,
}

impl Peer {
    /// One that has just come.
    pub fn new(token: u64, stream: UnixStream, busy: Option<String>, now: u64) -> Self {
        Peer {
            token,
            stage: Stage::Asking,
            follows: None,
            stream,
            input: Vec::new(),
            output: Vec::new(),
            until: Some(now + PATIENCE),
            is_silent: false,
            busy,
            speaks: Speaks::Lines,
        }
    }

    /// One that waits for an answer since before the program was replaced.
    pub fn left_by(token: u64, stream: UnixStream) -> Self {
        Peer { stage: Stage::Waiting, until: None, ..Peer::new(token, stream, None, 0) }
    }

    /// Its descriptor.
    pub fn descriptor(&self) -> RawFd {
        self.stream.as_raw_fd()
    }

    /// What is waited for.
    pub fn waited(&self) -> Waited {
        let reads = if self.is_silent { 0 } else { READABLE };
        let writes = if self.output.is_empty() { 0 } else { WRITABLE };
        Waited::new(self.stream.as_raw_fd(), reads | writes)
    }

    /// The reading at which its time is over.
    pub fn due(&self) -> Option<u64> {
        self.until
    }

    /// Whether it is served still. One that has said nothing in its time is told so.
    pub fn stays(&mut self, now: u64) -> bool {
        let is_over = self.until.is_some_and(|until| now >= until);
        if is_over && self.stage == Stage::Asking && !self.is_silent {
            if self.speaks == Speaks::Lines {
                self.refuse(now, "no request came within 5 s; send one line, as ctl does");
            } else {
                self.answer_http(now, Status::Slow, http::PLAIN, "no request came within 5 s\n");
            }
        }
        !is_over
    }

    /// Reads and writes what can be.
    pub fn turn(&mut self, now: u64, seen: &Waited, spoken: &mut Vec<Spoken>) {
        if seen.is_readable() {
            self.read(now, spoken);
        }
        if seen.is_writable() {
            self.flush(now);
        }
        if seen.is_hung_up() {
            self.leave();
        }
    }

    fn leave(&mut self) {
        self.is_silent = true;
        self.until = Some(0);
    }

    /// Reads once. What comes behind the first line is thrown away.
    pub fn read(&mut self, now: u64, spoken: &mut Vec<Spoken>) {
        let mut room = [0; LONGEST];
        match self.stream.read(&mut room) {
            Ok(0) if self.stage == Stage::Asking => self.leave(),
            Ok(0) => self.is_silent = true,
            Ok(count) if self.stage == Stage::Asking => {
                self.input.extend_from_slice(&room[..count]);
                self.ask(now, spoken);
            }
            Ok(_) => {}
            Err(error) if matches!(error.kind(), io::ErrorKind::WouldBlock | io::ErrorKind::Interrupted) => {}
            Err(_) => self.leave(),
        }
    }

    /// Takes the head of a request by HTTP, once it is whole.
    fn ask_http(&mut self, now: u64, spoken: &mut Vec<Spoken>) {
        self.speaks = Speaks::Http;
        match (Head::read(&self.input), self.busy.take()) {
            (None, busy) => self.busy = busy,
            (Some(Err(status)), _) => self.answer_http(now, status, http::PLAIN, "that is no request\n"),
            (Some(Ok(_)), Some(busy)) => self.answer_http(now, Status::Busy, http::PLAIN, &format!("{busy}\n")),
            (Some(Ok(head)), None) => {
                if head.is_bodiless() {
                    self.speaks = Speaks::HttpHead;
                }
                spoken.push(Spoken::AskedHttp(self.token, head));
                (self.stage, self.until, self.input) = (Stage::Waiting, None, Vec::new());
            }
        }
    }

    fn ask(&mut self, now: u64, spoken: &mut Vec<Spoken>) {
        if http::is_begun(&self.input) {
            return self.ask_http(now, spoken);
        }
        let Some(end) = self.input.iter().position(|&byte| byte == b'\n') else {
            if self.input.len() > LONGEST {
                self.refuse(now, "a request has at most 1024 bytes and ends with a line's end");
            }
            return;
        };
        let line = std::str::from_utf8(&self.input[..end]).ok().filter(|_| end <= LONGEST);
        let Some(line) = line.map(|line| line.trim().to_string()) else {
            return self.refuse(now, "a request is one line of at most 1024 bytes of text");
        };
        if let Some(busy) = self.busy.take().filter(|_| line != "shutdown") {
            return self.refuse(now, &busy);
        }
        spoken.push(Spoken::Asked(self.token, line));
        self.stage = Stage::Waiting;
        self.until = None;
        self.input = Vec::new();
    }

    /// What it asks for isn't done.
    pub fn refuse(&mut self, now: u64, text: &str) {
        if self.speaks == Speaks::Lines {
            self.answer(now, Err(text).into());
        } else {
            // It has to make room before it has asked.
            self.answer_http(now, Status::Busy, http::PLAIN, &format!("{text}\n"));
        }
    }

    /// Its whole answer.
    pub fn answer(&mut self, now: u64, answer: Answered<'_>) {
        self.begin(answer);
        self.finish(now, answer.status);
    }

    /// Its whole answer by HTTP.
    pub fn answer_http(&mut self, now: u64, status: Status, kind: &str, text: &str) {
        self.output.extend_from_slice(http::head_of(status, kind, Some(text.len()), "").as_bytes());
        if self.speaks != Speaks::HttpHead {
            self.output.extend_from_slice(text.as_bytes());
        }
        self.stage = Stage::Leaving;
        self.until = Some(now + PATIENCE);
        self.flush(now);
    }

    fn begin(&mut self, answer: Answered<'_>) {
        let (head, text) = (if answer.is_done { "ok" } else { "error" }, answer.text);
        let end = if text.is_empty() || text.ends_with('\n') { "" } else { "\n" };
        self.output.extend_from_slice(format!("{head}\n{text}{end}").as_bytes());
    }

    /// Its answer is whole.
    pub fn finish(&mut self, now: u64, status: u8) {
        self.output.extend_from_slice(format!("end {status}\n").as_bytes());
        self.stage = Stage::Leaving;
        self.follows = None;
        self.until = Some(now + PATIENCE);
        self.flush(now);
    }

    /// Why its answer takes so long.
    pub fn say_why(&mut self, now: u64, text: &str) {
        self.output.extend_from_slice(format!("wait\n{text}\n").as_bytes());
        self.flush(now);
    }

    /// The beginning of an answer that goes on.
    pub fn follow(&mut self, now: u64, text: &str, follows: Follows) {
        self.begin(Ok(text).into());
        self.stage = Stage::Following;
        self.follows = Some(follows);
        self.flush(now);
    }

    /// More of what it follows.
    pub fn tell(&mut self, bytes: &[u8]) {
        self.output.extend_from_slice(bytes);
    }

    /// Sends what it was told, and cuts it off if it leaves too much unread.
    pub fn send_told(&mut self, now: u64) {
        self.flush(now);
        if self.output.len() > UNREAD {
            self.leave();
        }
    }

    /// Something is left to be read by it.
    pub fn has_output(&self) -> bool {
        !self.output.is_empty()
    }

    /// Writes what is taken without waiting. Whoever has its whole answer is let go.
    pub fn flush(&mut self, now: u64) {
        let mut written = 0;
        while written < self.output.len() {
            match self.stream.write(&self.output[written..]) {
                Ok(count) if count > 0 => written += count,
                Err(error) if error.kind() == io::ErrorKind::WouldBlock => break,
                Err(error) if error.kind() == io::ErrorKind::Interrupted => {}
                _ => {
                    self.output = Vec::new();
                    self.leave();
                    return;
                }
            }
        }
        self.output.drain(..written);
        if self.stage == Stage::Leaving && self.output.is_empty() {
            self.leave();
        } else if self.stage == Stage::Leaving && written > 0 {
            self.until = Some(now + PATIENCE);
        }
    }
}
