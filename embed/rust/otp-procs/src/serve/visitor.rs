//! A visitor of the page: its request, and its answer as it is read. It has little time, and little room.

use crate::http::{self, Head, Status};
use crate::os::{READABLE, WRITABLE, Waited};
use crate::serve::place::Stream;
use std::collections::VecDeque;
use std::io;
use std::rc::Rc;

/// A visitor has so many milliseconds to say what it wants.
const ASKING: u64 = 5_000;
/// So many to read its answer, or one event.
const READING: u64 = 60_000;
/// So many until it hangs up, once it has all.
const LINGERING: u64 = 1_000;

/// What follows what happens.
pub const EVENTS: &str = "text/event-stream";

/// What a visitor is about.
#[derive(Clone, Copy, Debug, PartialEq, Eq)]
pub enum Stage {
    /// It hasn't said what it wants.
    Asking,
    /// It waits for a page; where true for the head of its answer alone.
    Waiting(bool),
    /// It gets events.
    Following,
    /// It has its whole answer to read.
    Leaving,
    /// It has read it. What it says meanwhile is thrown away, so that the system doesn't take the answer back.
    Lingering,
    /// It is gone.
    Gone,
}

/// A visitor.
#[derive(Debug)]
pub struct Visitor {
    stream: Stream,
    /// What it is about.
    pub stage: Stage,
    input: Vec<u8>,
    output: VecDeque<Rc<[u8]>>,
    /// So much of the first piece was taken.
    taken: usize,
    /// The reading at which it is cut off.
    pub until: Option<u64>,
    /// The mark of the page that it has, if it follows.
    pub has: String,
    /// It says nothing more.
    is_silent: bool,
}

impl Visitor {
    /// One that has just come.
    pub fn new(stream: Stream, now: u64) -> Self {
        Visitor {
            stream,
            stage: Stage::Asking,
            input: Vec::new(),
            output: VecDeque::new(),
            taken: 0,
            until: Some(now + ASKING),
            has: String::new(),
            is_silent: false,
        }
    }

    /// What is waited for.
    pub fn waited(&self) -> Waited {
        let reads = if self.is_silent { 0 } else { READABLE };
        let writes = if self.output.is_empty() { 0 } else { WRITABLE };
        Waited::new(self.stream.descriptor(), reads | writes)
    }

    /// Reads and writes what can be; the head of its request, or its fault, once that is known.
    pub fn turn(&mut self, now: u64, seen: &Waited) -> Option<Result<Head, Status>> {
        if seen.is_writable() {
            self.flush(now);
        }
        let asked = if seen.is_readable() { self.read() } else { None };
        if seen.is_hung_up() {
            self.stage = Stage::Gone;
        }
        asked
    }

    /// Reads once.
    pub fn read(&mut self) -> Option<Result<Head, Status>> {
        let mut room = [0; 4096];
        match self.stream.read(&mut room) {
            // One that waits for its answer, or reads it, may have closed its own half.
            Ok(0) if matches!(self.stage, Stage::Waiting(_) | Stage::Leaving) => self.is_silent = true,
            Ok(0) => self.stage = Stage::Gone,
            Ok(count) if self.stage == Stage::Asking => {
                self.input.extend_from_slice(&room[..count]);
                return Head::read(&self.input);
            }
            Ok(_) => {}
            Err(error) if matches!(error.kind(), io::ErrorKind::WouldBlock | io::ErrorKind::Interrupted) => {}
            Err(_) => self.stage = Stage::Gone,
        }
        None
    }

    /// Its time is over: one that has said nothing is told so.
    pub fn take_due(&mut self, now: u64) {
        if self.until.is_some_and(|until| now >= until) {
            match self.stage {
                Stage::Asking => self.refuse(now, Status::Slow, "no request came within 5 s"),
                _ => self.stage = Stage::Gone,
            }
        }
    }

    /// It waits for a page.
    pub fn wait(&mut self, is_bodiless: bool) {
        (self.stage, self.until, self.input) = (Stage::Waiting(is_bodiless), None, Vec::new());
    }

    /// It gets events from now on, and has the page with this mark.
    pub fn follow(&mut self, now: u64, mark: &str) {
        (self.stage, self.until, self.input) = (Stage::Following, None, Vec::new());
        self.has = mark.to_string();
        // A line that says nothing, so that a browser knows at once that it is heard.
        let head = http::head_of(Status::Fine, EVENTS, None, "X-Accel-Buffering: no\r\n") + ":\n\n";
        self.tell(now, head.into_bytes().into());
    }

    /// It gets nothing, and is told why.
    pub fn refuse(&mut self, now: u64, status: Status, text: &str) {
        self.answer(now, [http::refusal(status, text).into_bytes().into()]);
    }

    /// Its whole answer, in pieces that others may have as well.
    pub fn answer(&mut self, now: u64, pieces: impl IntoIterator<Item = Rc<[u8]>>) {
        (self.stage, self.until, self.input) = (Stage::Leaving, Some(now + READING), Vec::new());
        self.output.extend(pieces);
        self.flush(now);
    }

    /// Something that happens. Whoever has read all before has time for it.
    pub fn tell(&mut self, now: u64, event: Rc<[u8]>) {
        self.until = Some(now + READING);
        self.output.push_back(event);
        self.flush(now);
    }

    /// Whether it has read all that it was told.
    pub fn has_read_all(&self) -> bool {
        self.output.is_empty()
    }

    fn flush(&mut self, now: u64) {
        while let Some(piece) = self.output.front() {
            match self.stream.write(&piece[self.taken..]) {
                Ok(count) if count > 0 => self.taken += count,
                Err(error) if error.kind() == io::ErrorKind::WouldBlock => return,
                Err(error) if error.kind() == io::ErrorKind::Interrupted => {}
                _ => {
                    self.stage = Stage::Gone;
                    return;
                }
            }
            if self.taken >= piece.len() {
                self.output.pop_front();
                self.taken = 0;
            }
        }
        match self.stage {
            Stage::Leaving => {
                self.stream.end_writing();
                (self.stage, self.until) = (Stage::Lingering, Some(now + LINGERING));
            }
            Stage::Following => self.until = None,
            _ => {}
        }
    }
}
