//! The notifications of systemd, both ways: what the daemon tells the manager that has started it, and what a process tells the
//! daemon. Each is a datagram with lines NAME=VALUE to the socket that `NOTIFY_SOCKET` names.

use crate::os::{self, READABLE, Waited};
use std::env;
use std::io;
use std::os::fd::{AsRawFd, OwnedFd, RawFd};
use std::os::linux::net::SocketAddrExt;
use std::os::unix::net::{SocketAddr, UnixDatagram};
use std::sync::atomic::{AtomicU64, Ordering};

/// The variables by which a manager speaks to what it starts.
pub const VARIABLES: [&str; 3] = ["NOTIFY_SOCKET", "WATCHDOG_USEC", "WATCHDOG_PID"];

/// A datagram is no longer than this; so many are read at once.
const LONGEST: usize = 4096;
const AT_ONCE: usize = 32;

/// The manager that has started the daemon.
#[derive(Debug)]
pub struct Manager {
    socket: UnixDatagram,
    /// It wants to hear from the daemon every so many milliseconds.
    watchdog: Option<u64>,
}

fn address(name: &str) -> io::Result<SocketAddr> {
    match name.strip_prefix('@') {
        Some(name) => SocketAddr::from_abstract_name(name),
        None => SocketAddr::from_pathname(name),
    }
}

impl Manager {
    /// The one that the variables name, if there is one.
    pub fn of_environment() -> Option<Self> {
        let name = env::var("NOTIFY_SOCKET").ok().filter(|name| !name.is_empty())?;
        let is_meant = env::var("WATCHDOG_PID").map_or(true, |pid| pid.parse() == Ok(std::process::id()));
        let every = env::var("WATCHDOG_USEC").ok().and_then(|time| time.parse::<u64>().ok());
        Manager::new(&name, every.filter(|_| is_meant)).ok()
    }

    fn new(name: &str, microseconds: Option<u64>) -> io::Result<Self> {
        let socket = UnixDatagram::unbound()?;
        socket.set_nonblocking(true)?;
        socket.connect_addr(&address(name)?)?;
        Ok(Manager { socket, watchdog: microseconds.map(|time| (time / 1000).max(2)) })
    }

    /// Tells it something. A manager that has gone is told nothing.
    pub fn tell(&self, text: &str) {
        let _ = self.socket.send(text.as_bytes());
    }

    /// So often it is told that the daemon lives: twice in the time that it gives.
    pub fn every(&self) -> Option<u64> {
        self.watchdog.map(|time| time / 2)
    }
}

/// What a process has told.
#[derive(Clone, Debug, PartialEq, Eq)]
pub enum News {
    /// It is up.
    Ready,
    /// It lives.
    Alive,
    /// It says that its watchdog's time is over.
    Dead,
    /// How it is, in its own words.
    Status(String),
    /// It needs so many milliseconds more.
    Extend(u64),
}

/// The socket by which a process tells the daemon.
#[derive(Debug)]
pub struct Ear {
    socket: UnixDatagram,
    name: String,
}

static EARS: AtomicU64 = AtomicU64::new(0);

/// The number of the next one.
pub fn ears() -> u64 {
    EARS.load(Ordering::Relaxed)
}

/// The next one has this number, as those below are taken.
pub fn begin_ears_at(number: u64) {
    EARS.store(number, Ordering::Relaxed);
}

impl Ear {
    /// A new one, which is no file: its name is gone with it.
    pub fn new() -> io::Result<Self> {
        let number = EARS.fetch_add(1, Ordering::Relaxed);
        let name = format!("otp-procs/{}/{number}", std::process::id());
        let socket = UnixDatagram::bind_addr(&SocketAddr::from_abstract_name(&name)?)?;
        socket.set_nonblocking(true)?;
        os::pass_credentials(&socket)?;
        Ok(Ear { socket, name })
    }

    /// One that an earlier program has left open.
    pub fn left_by(fd: OwnedFd, name: &str) -> Self {
        Ear { socket: fd.into(), name: name.to_string() }
    }

    /// What is left of it to a later program.
    pub fn left(&self) -> (RawFd, String) {
        (self.socket.as_raw_fd(), self.name.clone())
    }

    /// What `NOTIFY_SOCKET` is in the process.
    pub fn variable(&self) -> String {
        format!("@{}", self.name)
    }

    /// Waits until something is told.
    pub fn waited(&self) -> Waited {
        Waited::new(self.socket.as_raw_fd(), READABLE)
    }

    /// What was told by users who may.
    pub fn hear(&self, may_tell: impl Fn(u32) -> bool) -> Vec<News> {
        let (mut heard, mut room) = (Vec::new(), [0; LONGEST]);
        for _ in 0..AT_ONCE {
            match os::receive(&self.socket, &mut room) {
                Ok((count, Some(user))) if may_tell(user) => heard.extend(news_in(&room[..count])),
                Ok(_) => {}
                Err(error) if error.kind() == io::ErrorKind::Interrupted => {}
                Err(_) => break,
            }
        }
        heard
    }
}

fn news_in(datagram: &[u8]) -> Vec<News> {
    let text = String::from_utf8_lossy(datagram);
    let news = |line: &str| match line.split_once('=')? {
        ("READY", "1") => Some(News::Ready),
        ("WATCHDOG", "1") => Some(News::Alive),
        ("WATCHDOG", "trigger") => Some(News::Dead),
        ("STATUS", status) => Some(News::Status(status.to_string())),
        ("EXTEND_TIMEOUT_USEC", time) => time.parse::<u64>().ok().map(|time| News::Extend(time / 1000)),
        _ => None,
    };
    text.lines().filter_map(news).collect()
}

#[cfg(test)]
mod tests {
    use super::*;

    #[test]
    fn what_is_told_is_heard_if_he_may_tell_it() {
        let ear = Ear::new().unwrap();
        let teller = Manager::new(&ear.variable(), Some(3_000_000)).unwrap();
        assert_eq!(teller.every(), Some(1500));
        teller.tell(
            "READY=1\nSTATUS=at work\nMAINPID=7\nx\nWATCHDOG=1\nEXTEND_TIMEOUT_USEC=5000\nWATCHDOG=trigger\nREADY=0",
        );
        let wanted = [News::Ready, News::Status("at work".into()), News::Alive, News::Extend(5), News::Dead];
        assert_eq!(ear.hear(|user| user == os::own_user()), wanted);
        teller.tell("READY=1");
        assert_eq!(ear.hear(|_| false), []);
        teller.tell(&"x".repeat(10_000));
        teller.tell("READY=1");
        assert_eq!(ear.hear(|_| true), [News::Ready]);
        drop(ear);
        teller.tell("READY=1");
    }
}
