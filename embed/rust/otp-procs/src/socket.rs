//! Sockets of the system's logs: of `syslog`, and of systemd's journal in its own form. Each line is one message.

use crate::os::{WRITABLE, Waited};
use std::collections::VecDeque;
use std::io;
use std::os::fd::AsRawFd;
use std::os::unix::net::UnixDatagram;
use std::path::{Path, PathBuf};

/// Which form the messages have.
#[derive(Clone, Copy, Debug, PartialEq, Eq)]
pub enum Form {
    /// As `syslog` has sent them ever since.
    Syslog,
    /// The journal's own.
    Journal,
}

impl Form {
    /// Where the system has the socket.
    pub fn usual(self) -> &'static str {
        match self {
            Form::Syslog => "/dev/log",
            Form::Journal => "/run/systemd/journal/socket",
        }
    }
}

/// The facility of daemons, times eight.
const DAEMON: u32 = 3 << 3;
/// The severities of what a process says, and of its errors.
const INFO: u32 = 6;
const ERROR: u32 = 3;
/// `EMSGSIZE`.
const TOO_LONG: i32 = 90;

/// The lines of a process on their way to such a socket.
#[derive(Debug)]
pub struct Socket {
    form: Form,
    to: PathBuf,
    tag: String,
    pid: i32,
    severity: u32,
    end: Option<UnixDatagram>,
    queue: VecDeque<Vec<u8>>,
    bytes: usize,
}

impl Socket {
    /// For the process of this path.
    pub fn new(form: Form, to: &Path, path: &str, is_errors: bool) -> Self {
        Socket {
            form,
            to: to.to_path_buf(),
            tag: path.to_string(),
            pid: 0,
            severity: if is_errors { ERROR } else { INFO },
            end: None,
            queue: VecDeque::new(),
            bytes: 0,
        }
    }

    /// The process's number in the system.
    pub fn set_pid(&mut self, pid: i32) {
        self.pid = pid;
    }

    /// Adds a line.
    pub fn push(&mut self, line: &str) {
        let (tag, pid, severity) = (&self.tag, self.pid, self.severity);
        let message = match self.form {
            Form::Syslog => format!("<{}>{tag}[{pid}]: {line}", DAEMON + severity),
            Form::Journal => format!(
                "MESSAGE={line}\nPRIORITY={severity}\nSYSLOG_FACILITY=3\nSYSLOG_IDENTIFIER={tag}\nSYSLOG_PID={pid}\nOTP_CHILD={tag}\n"
            ),
        };
        self.bytes += message.len();
        self.queue.push_back(message.into_bytes());
    }

    /// How many bytes aren't sent.
    pub fn unsent(&self) -> usize {
        self.bytes
    }

    /// Waits until something can be sent.
    pub fn waited(&self) -> Option<Waited> {
        self.end.as_ref().map(|socket| Waited::new(socket.as_raw_fd(), WRITABLE))
    }

    /// Sends what is taken without waiting: how many bytes were, and how many are lost, and why, since the system refuses them.
    pub fn flush(&mut self) -> (usize, Option<(u64, io::Error)>) {
        let (mut sent, mut is_new) = (0, false);
        while let Some(message) = self.queue.front() {
            let length = message.len();
            match self.send() {
                Ok(()) => sent += length,
                Err(error) if error.kind() == io::ErrorKind::WouldBlock => break,
                Err(error) if error.kind() == io::ErrorKind::Interrupted => continue,
                Err(error) if error.raw_os_error() == Some(TOO_LONG) => {
                    self.drop_first();
                    return (sent, Some((length as u64, error)));
                }
                // Whoever listened may have begun anew.
                Err(_) if !is_new => {
                    (self.end, is_new) = (None, true);
                    continue;
                }
                Err(error) => {
                    let lost = self.bytes as u64;
                    (self.bytes, self.end) = (0, None);
                    self.queue.clear();
                    return (sent, Some((lost, error)));
                }
            }
            self.drop_first();
        }
        (sent, None)
    }

    fn drop_first(&mut self) {
        self.bytes -= self.queue.pop_front().map_or(0, |message| message.len());
    }

    fn send(&mut self) -> io::Result<()> {
        if self.end.is_none() {
            let socket = UnixDatagram::unbound()?;
            socket.set_nonblocking(true)?;
            socket.connect(&self.to)?;
            self.end = Some(socket);
        }
        match (&self.end, self.queue.front()) {
            (Some(socket), Some(message)) => socket.send(message).map(drop),
            _ => Ok(()),
        }
    }
}

#[cfg(test)]
mod tests {
    use super::*;
    use std::fs;

    #[test]
    fn lines_are_sent_waited_for_and_lost_if_nobody_listens() {
        let path = std::env::temp_dir().join(format!("otp-procs-socket-{}", std::process::id()));
        let mut socket = Socket::new(Form::Syslog, &path, "pool/a", false);
        socket.set_pid(7);
        socket.push("nobody hears it");
        let (sent, lost) = socket.flush();
        assert_eq!((sent, lost.map(|(bytes, _)| bytes), socket.unsent()), (0, Some(30), 0));
        let server = UnixDatagram::bind(&path).unwrap();
        for number in 0..5000 {
            socket.push(&format!("line {number}"));
        }
        // The system takes some; the others wait.
        let (sent, lost) = socket.flush();
        assert!(sent > 0 && lost.is_none() && socket.unsent() > 0);
        let mut room = [0; 200];
        for number in 0..5000 {
            let count = server.recv(&mut room).unwrap();
            assert_eq!(std::str::from_utf8(&room[..count]).unwrap(), format!("<30>pool/a[7]: line {number}"));
            assert!(socket.flush().1.is_none());
        }
        // Another one at the same place is found. What a test beside this one forks may have the old one open for a moment.
        drop(server);
        fs::remove_file(&path).unwrap();
        let server = UnixDatagram::bind(&path).unwrap();
        server.set_read_timeout(Some(std::time::Duration::from_millis(50))).unwrap();
        loop {
            socket.push("again");
            assert!(socket.flush().1.is_none());
            if let Ok(count) = server.recv(&mut room) {
                assert_eq!(count, "<30>pool/a[7]: again".len());
                break;
            }
        }
        drop(socket);
        while server.recv(&mut room).is_ok() {}
        let mut socket = Socket::new(Form::Journal, &path, "a", true);
        socket.push("x=y");
        socket.flush();
        let count = server.recv(&mut room).unwrap();
        let text = "MESSAGE=x=y\nPRIORITY=3\nSYSLOG_FACILITY=3\nSYSLOG_IDENTIFIER=a\nSYSLOG_PID=0\nOTP_CHILD=a\n";
        assert_eq!(std::str::from_utf8(&room[..count]).unwrap(), text);
        fs::remove_file(&path).unwrap();
    }
}
