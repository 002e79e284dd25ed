//! The control socket: who may speak, and that nobody who hangs or sends rubbish is waited for.

use crate::http::{Head, Status};
use crate::os::{self, READABLE, Waited};
use crate::peer::{Follows, Peer, Stage};
use std::fmt;
use std::fs::{self, DirBuilder, File, Permissions};
use std::io::{self, Write};
use std::os::fd::{AsRawFd, RawFd};
use std::os::unix::fs::{DirBuilderExt, MetadataExt, PermissionsExt};
use std::os::unix::net::{UnixListener, UnixStream};
use std::path::{Path, PathBuf};
use std::time::{Duration, Instant};

/// So many clients are served at once.
const MOST: usize = 32;
/// So many of them may follow the log.
const FOLLOWERS: usize = 16;
/// So many more places there are for those who ask for `shutdown`.
const SPARE: usize = 16;
/// No client is accepted for so many milliseconds after that was refused by the system.
const PAUSE: u64 = 1_000;
/// At the end clients have so long to read what is left, as long as they read at all.
const LAST: Duration = Duration::from_secs(1);
const STEP: Duration = Duration::from_millis(200);

/// The token of the client that waited when the program was replaced.
pub const LEFT: u64 = 1;

/// The socket's name in its folder.
const SOCKET: &str = "socket";

/// Why there is no control socket.
#[derive(Debug)]
pub enum ControlError {
    /// The folder is another user's, or others may enter it.
    NotPrivate(PathBuf),
    /// Another daemon has it.
    Taken(PathBuf),
    /// The system refuses it.
    System(PathBuf, io::Error),
}

impl fmt::Display for ControlError {
    fn fmt(&self, f: &mut fmt::Formatter<'_>) -> fmt::Result {
        match self {
            ControlError::NotPrivate(folder) => write!(
                f,
                "{} is to be a folder of your own that nobody else may enter; chmod 700 it, or give --control another folder",
                folder.display()
            ),
            ControlError::Taken(folder) => {
                write!(f, "another daemon has {}; stop it, or give --control another folder", folder.display())
            }
            ControlError::System(path, error) => write!(f, "{}: {error}", path.display()),
        }
    }
}

impl std::error::Error for ControlError {}

/// The variable that names the control folder.
const VARIABLE: &str = "OTP_CONTROL";

fn variable(name: &str) -> Option<PathBuf> {
    std::env::var_os(name).filter(|value| !value.is_empty()).map(PathBuf::from)
}

/// Where a daemon has its socket if nobody says: in the user's own runtime folder, or else below `/tmp`.
pub fn usual_folder() -> PathBuf {
    usual_folders().swap_remove(0)
}

/// Where it may be: a daemon that was started without a login has no runtime folder, and one who asks may have none.
pub fn usual_folders() -> Vec<PathBuf> {
    if let Some(folder) = variable(VARIABLE) {
        return vec![folder];
    }
    let user = os::own_user();
    let below_tmp = PathBuf::from(format!("/tmp/otp-procs-{user}"));
    match variable("XDG_RUNTIME_DIR") {
        Some(folder) => vec![folder.join("otp-procs"), below_tmp],
        None => vec![below_tmp, PathBuf::from(format!("/run/user/{user}/otp-procs"))],
    }
}

/// The socket in a control folder.
pub fn socket_in(folder: &Path) -> PathBuf {
    folder.join(SOCKET)
}

/// What a turn of the socket has brought.
#[derive(Debug, PartialEq, Eq)]
pub enum Spoken {
    /// This client has asked for this.
    Asked(u64, String),
    /// This client has asked by HTTP.
    AskedHttp(u64, Head),
    /// Somebody of this user was turned away.
    TurnedAway(u32),
}

/// A whole answer: its text, whether what was asked was done, and the exit status of who has asked.
#[derive(Clone, Copy, Debug, PartialEq, Eq)]
pub struct Answered<'a> {
    /// The exit status.
    pub status: u8,
    /// The text.
    pub text: &'a str,
    /// It was done.
    pub is_done: bool,
}

impl<'a> From<Result<&'a str, &'a str>> for Answered<'a> {
    fn from(answer: Result<&'a str, &'a str>) -> Self {
        match answer {
            Ok(text) => Answered { status: 0, text, is_done: true },
            Err(text) => Answered { status: 1, text, is_done: false },
        }
    }
}

/// The socket with its clients.
#[derive(Debug)]
pub struct Control {
    folder: PathBuf,
    listener: UnixListener,
    clients: Vec<Peer>,
    tokens: u64,
    /// Nobody is accepted before this reading.
    paused: u64,
    /// It is locked as long as the daemon lives, also if that is killed.
    lock: File,
}

impl Control {
    /// Takes the folder over, with what a daemon that was killed has left there.
    pub fn open(folder: &Path) -> Result<Self, ControlError> {
        let system = |error| ControlError::System(folder.to_path_buf(), error);
        match DirBuilder::new().mode(0o700).create(folder) {
            Err(error) if error.kind() != io::ErrorKind::AlreadyExists => {
                return Err(system(error));
            }
            _ => {}
        }
        let found = fs::symlink_metadata(folder).map_err(system)?;
        if !found.is_dir() || found.uid() != os::own_user() || found.mode() & 0o077 != 0 {
            return Err(ControlError::NotPrivate(folder.to_path_buf()));
        }
        let lock =
            File::options().write(true).create(true).truncate(false).open(folder.join("lock")).map_err(system)?;
        match lock.try_lock() {
            Ok(()) => {}
            Err(fs::TryLockError::WouldBlock) => {
                return Err(ControlError::Taken(folder.to_path_buf()));
            }
            Err(fs::TryLockError::Error(error)) => return Err(system(error)),
        }
        let path = socket_in(folder);
        // Who cleans up below /tmp may have removed the file that the other daemon has locked: its socket answers still.
        if UnixStream::connect(&path).is_ok() {
            return Err(ControlError::Taken(folder.to_path_buf()));
        }
        match fs::remove_file(&path) {
            Err(error) if error.kind() != io::ErrorKind::NotFound => return Err(system(error)),
            _ => {}
        }
        let listener = UnixListener::bind(&path).map_err(system)?;
        fs::set_permissions(&path, Permissions::from_mode(0o600)).map_err(system)?;
        listener.set_nonblocking(true).map_err(system)?;
        Ok(Control { folder: folder.to_path_buf(), listener, clients: Vec::new(), tokens: 0, paused: 0, lock })
    }

    /// The descriptors of the socket, of the lock, and of a client.
    pub fn descriptors(&self, token: u64) -> [RawFd; 3] {
        let client = self.clients.iter().find(|client| client.token == token);
        [self.listener.as_raw_fd(), self.lock.as_raw_fd(), client.map_or(-1, Peer::descriptor)]
    }

    /// Goes on with those that an earlier program has left.
    pub fn left_by(folder: &Path, [socket, lock, client]: [RawFd; 3]) -> Option<Self> {
        let client = os::left_open(client).map(|fd| Peer::left_by(LEFT, fd.into()));
        Some(Control {
            folder: folder.to_path_buf(),
            listener: os::left_open(socket)?.into(),
            clients: client.into_iter().collect(),
            tokens: LEFT,
            paused: 0,
            lock: os::left_open(lock)?.into(),
        })
    }

    /// Makes the socket anew where somebody has removed it, or its folder; whether it did.
    pub fn renew(&mut self) -> Result<bool, ControlError> {
        if socket_in(&self.folder).exists() {
            return Ok(false);
        }
        let new = Control::open(&self.folder)?;
        *self = Control { clients: std::mem::take(&mut self.clients), tokens: self.tokens, paused: self.paused, ..new };
        Ok(true)
    }

    /// What is waited for, for a turn at this reading: the socket, then each client.
    pub fn waited(&self, now: u64) -> Vec<Waited> {
        let accepts = if now < self.paused { -1 } else { self.listener.as_raw_fd() };
        let mut waited = vec![Waited::new(accepts, READABLE)];
        waited.extend(self.clients.iter().map(Peer::waited));
        waited
    }

    /// The reading at which somebody is cut off, or accepted again.
    pub fn next_due(&self, now: u64) -> Option<u64> {
        let paused = (now < self.paused).then_some(self.paused);
        self.clients.iter().filter_map(Peer::due).chain(paused).min()
    }

    /// Reads and writes what can be, given what was seen of [`Control::waited`].
    pub fn turn(&mut self, now: u64, seen: &[Waited]) -> Vec<Spoken> {
        let mut spoken = Vec::new();
        for (client, seen) in self.clients.iter_mut().zip(seen.iter().skip(1)) {
            client.turn(now, seen, &mut spoken);
        }
        self.clients.retain_mut(|client| client.stays(now));
        if seen.first().is_some_and(Waited::is_seen) {
            self.accept(now, &mut spoken);
        }
        spoken
    }

    /// As many are accepted as there is room for. The others wait for the next turn, since of those that came now many may be
    /// gone by then. Where there is no room, one that has said nothing yet makes room; where all have, who comes is told that the
    /// daemon is busy, and only `shutdown` is taken.
    fn accept(&mut self, now: u64, spoken: &mut Vec<Spoken>) {
        let room = MOST - self.clients.len().min(MOST);
        for _ in 0..if room > 0 { room } else { MOST } {
            let stream = match self.listener.accept() {
                Ok((stream, _)) => stream,
                Err(error) if error.kind() == io::ErrorKind::WouldBlock => return,
                Err(_) => {
                    self.paused = now + PAUSE;
                    return;
                }
            };
            if stream.set_nonblocking(true).is_err() {
                continue;
            }
            match os::peer_user(&stream) {
                Ok(user) if user == os::own_user() => self.welcome(now, stream, spoken),
                user => {
                    let user = user.unwrap_or(u32::MAX);
                    let _ = (&stream).write_all(turned_away(user).as_bytes());
                    spoken.push(Spoken::TurnedAway(user));
                }
            }
        }
    }

    fn welcome(&mut self, now: u64, stream: UnixStream, spoken: &mut Vec<Spoken>) {
        let mut busy = None;
        if self.clients.len() >= MOST {
            let idle = self.clients.iter().position(|client| client.stage == Stage::Asking);
            match idle.map(|idle| self.clients.remove(idle)) {
                Some(mut idle) => idle.refuse(now, "busy: another client needs the place; ask at once"),
                None => busy = Some(self.busy()),
            }
        }
        self.tokens += 1;
        let mut client = Peer::new(self.tokens, stream, busy, now);
        if self.clients.len() >= MOST + SPARE {
            client.refuse(now, &self.busy());
            return;
        }
        // Most have said what they want.
        client.read(now, spoken);
        self.clients.push(client);
    }

    fn busy(&self) -> String {
        let (all, following) = (self.clients.len(), self.following());
        format!(
            "busy: {all} clients wait for an answer or read one, {following} of them by tail -f; end some, or try again"
        )
    }

    fn following(&self) -> usize {
        self.clients.iter().filter(|client| client.stage == Stage::Following).count()
    }

    fn client(&mut self, token: u64) -> Option<&mut Peer> {
        self.clients.iter_mut().find(|client| client.token == token)
    }

    /// Whether a client waits for its answer still.
    pub fn is_waiting(&self, token: u64) -> bool {
        self.clients.iter().any(|client| client.token == token && client.stage == Stage::Waiting)
    }

    /// The whole answer of a client. One that has gone, or has its answer, is answered nothing.
    pub fn answer(&mut self, now: u64, token: u64, answer: Answered<'_>) {
        if let Some(client) = self.client(token).filter(|client| client.stage == Stage::Waiting) {
            client.answer(now, answer);
        }
    }

    /// The whole answer of a client that has asked by HTTP.
    pub fn answer_http(&mut self, now: u64, token: u64, status: Status, kind: &str, text: &str) {
        if let Some(client) = self.client(token) {
            client.answer_http(now, status, kind, text);
        }
    }

    /// A client that goes on waiting for its answer is told why.
    pub fn say_why(&mut self, now: u64, token: u64, text: &str) {
        if let Some(client) = self.client(token) {
            client.say_why(now, text);
        }
    }

    /// The beginning of an answer, and from then on what it follows. Only so many clients may have that.
    pub fn follow(&mut self, now: u64, token: u64, text: &str, follows: Follows) {
        let is_free = self.following() < FOLLOWERS;
        if let Some(client) = self.client(token) {
            if is_free {
                client.follow(now, text, follows);
            } else {
                let text = format!("busy: {FOLLOWERS} clients follow already; end one, or ask without -f");
                client.refuse(now, &text);
            }
        }
    }

    /// Whether somebody follows the log.
    pub fn is_followed(&self) -> bool {
        self.clients.iter().any(|client| client.follows == Some(Follows::Log))
    }

    /// Whoever follows the log gets these lines.
    pub fn tell(&mut self, now: u64, lines: &[String]) {
        for client in self.clients.iter_mut().filter(|client| client.follows == Some(Follows::Log)) {
            for line in lines {
                client.tell(line.as_bytes());
                client.tell(b"\n");
            }
            client.send_told(now);
        }
    }

    /// Whoever follows the events gets these, each with its path.
    pub fn tell_events(&mut self, now: u64, events: &[(String, String)]) {
        for client in &mut self.clients {
            let Some(Follows::Events(head)) = client.follows.clone() else { continue };
            for (_, line) in events.iter().filter(|(path, _)| path.starts_with(&head)) {
                client.tell(line.as_bytes());
                client.tell(b"\n");
            }
            client.send_told(now);
        }
    }

    /// Whether somebody follows events.
    pub fn has_event_followers(&self) -> bool {
        self.clients.iter().any(|client| matches!(client.follows, Some(Follows::Events(_))))
    }

    /// Whoever follows the process of this path gets what it has written.
    pub fn tell_of(&mut self, now: u64, path: &str, bytes: &[u8]) {
        let follows = |client: &&mut Peer| matches!(&client.follows, Some(Follows::Process(other)) if other == path);
        for client in self.clients.iter_mut().filter(follows) {
            client.tell(bytes);
            client.send_told(now);
        }
    }

    /// Takes the socket away, once all clients have their whole answers or don't read on.
    pub fn close(mut self, now: u64) {
        for client in self.clients.iter_mut().filter(|client| client.stage == Stage::Following) {
            client.finish(now, 0);
        }
        let begun = Instant::now();
        loop {
            self.clients.iter_mut().for_each(|client| client.flush(now));
            self.clients.retain(Peer::has_output);
            let mut waited: Vec<Waited> = self.clients.iter().map(Peer::waited).collect();
            if waited.is_empty() || begun.elapsed() >= LAST || os::wait(&mut waited, Some(STEP)).is_err() {
                break;
            }
            if !waited.iter().any(Waited::is_writable) {
                break;
            }
        }
        let _ = fs::remove_file(socket_in(&self.folder));
    }
}

fn turned_away(user: u32) -> String {
    format!("error\nthe daemon serves its own user ({}) alone, and you are {user}\nend 1\n", os::own_user())
}
