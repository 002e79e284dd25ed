//! The output of a process, where the daemon reads it: lines for the log, and bytes that are passed on.

use crate::handover::LeftOutlet;
use crate::lines::{Line, Lines, Search};
use crate::os::{self, READABLE, Waited};
use crate::plan::{Output, Plan, Ready};
use crate::sink::Sink;
use crate::socket::Socket;
use crate::spawn::{NotStarted, no_output, open_output};
use std::io::{self, PipeReader};
use std::os::fd::{AsFd, AsRawFd};

/// So much of the output is read at once, before others have their turn: a child that writes without end keeps nobody waiting.
const READ: usize = 64 * 1024;
/// So often it is read at most once its process has ended: that is as much as a pipe may hold.
const READS: usize = 17;

/// Where what is read stands until it is told.
#[derive(Debug)]
pub struct Room(Vec<u8>);

impl Default for Room {
    fn default() -> Self {
        Room(vec![0; READ])
    }
}

/// Which of the two a process writes to, where they go apart.
#[derive(Clone, Copy, Debug, PartialEq, Eq)]
pub enum Stream {
    /// Its output, and its errors where they go with it.
    Output,
    /// Its errors.
    Errors,
}

/// What is told of a process's output.
#[derive(Debug)]
pub enum Heard<'a> {
    /// A line for the log; with the number of the piece, if the line goes on with the next one.
    Line(&'a str, Option<u64>, Stream),
    /// Bytes as they came.
    Bytes(&'a [u8]),
    /// So many bytes were lost on their way to where the output goes, and why.
    Lost(u64, String),
}

/// To whom it is told.
pub type Tell<'a> = &'a mut dyn FnMut(Heard<'_>);

/// Where what is read goes.
#[derive(Debug)]
enum Target {
    /// Nowhere: only a text is looked for.
    Nothing,
    /// Line by line into the daemon's log.
    Log,
    /// To a file or a pipe, as bytes.
    Sink(Sink),
    /// To a socket of the system's log.
    Socket(Box<Socket>),
}

/// The output of a process, as the daemon reads it. What is passed on and can't be written at once is kept, and no more is
/// read until it is written: then the process has to wait, as where it writes there itself.
#[derive(Debug)]
pub struct Outlet {
    /// Nothing, once its end was read.
    pipe: Option<PipeReader>,
    lines: Lines,
    stream: Stream,
    /// The text that tells that the process is up.
    search: Option<Search>,
    target: Target,
    unwritten: Vec<u8>,
    /// What was last written was refused, and so many bytes more since.
    lost: Option<u64>,
}

impl Outlet {
    /// What comes by this pipe of the process of a path, which goes where `output` says. A text may be looked for in it.
    pub fn new(
        pipe: PipeReader,
        stream: Stream,
        output: &Output,
        path: &str,
        wanted: Option<&str>,
    ) -> Result<Self, NotStarted> {
        Ok(Outlet {
            pipe: Some(pipe),
            lines: Lines::default(),
            stream,
            search: wanted.map(Search::new),
            target: match output {
                Output::Null => Target::Nothing,
                Output::Log => Target::Log,
                Output::Inherit if stream == Stream::Errors => Target::Sink(Sink::errors()),
                Output::Inherit => Target::Sink(Sink::output()),
                Output::File(file, None) => Target::Sink(Sink::file(open_output(file)?)),
                Output::File(file, Some(rotation)) => {
                    Target::Sink(Sink::turning(file, *rotation).map_err(|error| no_output(file, &error))?)
                }
                Output::Socket(form, to) => {
                    Target::Socket(Box::new(Socket::new(*form, to, path, stream == Stream::Errors)))
                }
            },
            unwritten: Vec::new(),
            lost: None,
        })
    }

    /// One that an earlier program has left open.
    pub fn left_by(left: &LeftOutlet, plan: &Plan, path: &str, pid: i32) -> Result<Option<Self>, NotStarted> {
        let (stream, own) =
            if left.is_errors { (Stream::Errors, plan.errors.as_ref()) } else { (Stream::Output, Some(&plan.output)) };
        let (Some(output), Some(fd)) = (own, os::left_open(left.pipe)) else { return Ok(None) };
        let wanted = match &plan.ready {
            Ready::Line(text) if left.is_searching => Some(text.as_str()),
            _ => None,
        };
        let outlet = Outlet::new(fd.into(), stream, output, path, wanted)?;
        let lines = Lines::left_by(&left.rest, left.parts);
        let mut outlet = Outlet { lines, unwritten: left.unwritten.clone(), ..outlet };
        outlet.set_pid(pid);
        Ok(Some(outlet))
    }

    /// What is left of it to a later program.
    pub fn left(&self) -> LeftOutlet {
        let (rest, parts) = self.lines.left();
        LeftOutlet {
            is_errors: self.stream == Stream::Errors,
            pipe: self.pipe.as_ref().map_or(-1, AsRawFd::as_raw_fd),
            is_searching: self.search.is_some(),
            rest,
            parts,
            unwritten: self.unwritten.clone(),
        }
    }

    /// Messages wait that only this program can send, or bytes of which the pipe is closed.
    pub fn has_unsent(&self) -> bool {
        matches!(&self.target, Target::Socket(socket) if socket.unsent() > 0)
            || (self.pipe.is_none() && !self.unwritten.is_empty())
    }

    /// The process's number in the system, for messages that have it.
    pub fn set_pid(&mut self, pid: i32) {
        if let Target::Socket(socket) = &mut self.target {
            socket.set_pid(pid);
        }
    }

    /// Opens the file anew that it is passed on to.
    pub fn reopen(&mut self, plan: &Plan) {
        let output = if self.stream == Stream::Output { Some(&plan.output) } else { plan.errors.as_ref() };
        let opened = match output {
            Some(Output::File(file, Some(rotation))) => Sink::turning(file, *rotation).ok(),
            Some(Output::File(file, None)) => open_output(file).ok().map(Sink::file),
            _ => None,
        };
        if let Some(sink) = opened {
            self.target = Target::Sink(sink);
        }
    }

    /// What is waited for: that what was read can be written, or that there is more to read.
    pub fn waited(&self) -> Option<Waited> {
        match &self.target {
            Target::Sink(sink) if !self.unwritten.is_empty() => Some(sink.waited()),
            Target::Socket(socket) if socket.unsent() > 0 => socket.waited(),
            _ => self.pipe.as_ref().map(|pipe| Waited::new(pipe.as_raw_fd(), READABLE)),
        }
    }

    /// Writes what was read before, and reads what there is; whether a line of it has the text that was waited for. The last
    /// time all is read, however much can be written.
    pub fn take(&mut self, is_last: bool, room: &mut Room, tell: Tell<'_>) -> bool {
        self.pass_on(tell);
        let mut is_found = false;
        for _ in 0..if is_last { READS } else { 1 } {
            let Some(pipe) = &self.pipe else { break };
            if self.unwritten() > 0 && !is_last {
                break;
            }
            match os::read_once(pipe.as_fd(), &mut room.0) {
                Ok(count) if count > 0 => {
                    tell(Heard::Bytes(&room.0[..count]));
                    is_found |= self.take_lines(Some(&room.0[..count]), tell);
                    if matches!(self.target, Target::Sink(_)) {
                        self.unwritten.extend_from_slice(&room.0[..count]);
                    }
                    self.pass_on(tell);
                }
                Err(error) if error.kind() == io::ErrorKind::WouldBlock => break,
                Err(error) if error.kind() == io::ErrorKind::Interrupted => {}
                _ => self.pipe = None,
            }
        }
        if is_last {
            self.pipe = None;
        }
        if self.pipe.is_none() {
            is_found |= self.take_lines(None, tell);
            self.pass_on(tell);
            if self.is_over() {
                self.tell_lost(tell);
            }
        }
        is_found
    }

    /// Cuts what was read into lines; nothing, where its end was reached.
    fn take_lines(&mut self, bytes: Option<&[u8]>, tell: Tell<'_>) -> bool {
        if self.search.is_none() && matches!(self.target, Target::Sink(_) | Target::Nothing) {
            return false;
        }
        let (search, target, stream, mut is_found) = (&mut self.search, &mut self.target, self.stream, false);
        let mut take = |line: Line<'_>| {
            if search.as_mut().is_some_and(|search| search.finds(line)) {
                *search = None;
                is_found = true;
            }
            match target {
                Target::Log => tell(Heard::Line(&String::from_utf8_lossy(line.bytes), line.part, stream)),
                Target::Socket(socket) => socket.push(&String::from_utf8_lossy(line.bytes)),
                Target::Sink(_) | Target::Nothing => {}
            }
        };
        match bytes {
            Some(bytes) => self.lines.take(bytes, &mut take),
            None => self.lines.finish(&mut take),
        }
        is_found
    }

    /// Writes what is taken without waiting. What is refused (a full disk, a pipe without a reader) is lost: the first time that
    /// is told at once, and then once something is taken again.
    fn pass_on(&mut self, tell: Tell<'_>) {
        let (count, refused) = match &mut self.target {
            Target::Sink(sink) if !self.unwritten.is_empty() => {
                let (count, error) = sink.write(&self.unwritten);
                self.unwritten.drain(..count);
                let lost = error.map(|error| (std::mem::take(&mut self.unwritten).len() as u64, error));
                (count, lost)
            }
            Target::Socket(socket) if socket.unsent() > 0 => socket.flush(),
            _ => return,
        };
        if count > 0 {
            self.tell_lost(tell);
        }
        if let Some((lost, error)) = refused {
            if let Some(more) = &mut self.lost {
                *more += lost;
            } else {
                self.lost = Some(0);
                tell(Heard::Lost(lost, error.to_string()));
            }
        }
    }

    fn tell_lost(&mut self, tell: Tell<'_>) {
        if let Some(lost) = self.lost.take().filter(|lost| *lost > 0) {
            tell(Heard::Lost(lost, "since then".to_string()));
        }
    }

    /// All was read and written.
    pub fn is_over(&self) -> bool {
        self.pipe.is_none() && self.unwritten() == 0
    }

    /// How much is kept.
    pub fn unwritten(&self) -> usize {
        match &self.target {
            Target::Socket(socket) => socket.unsent(),
            _ => self.unwritten.len(),
        }
    }

    /// Nothing more is written: what is left is lost.
    pub fn give_up(mut self, tell: Tell<'_>) {
        self.pass_on(tell);
        self.tell_lost(tell);
        if self.unwritten() > 0 {
            tell(Heard::Lost(self.unwritten() as u64, "nobody reads it, and its process has ended".to_string()));
        }
    }
}
