//! Where a page is served: on a Unix socket of its own user, or on this machine alone, for who has the token.

use crate::http::Head;
use crate::os;
use std::fmt::Write as _;
use std::fs::{self, File};
use std::hint::black_box;
use std::io::{self, Read, Write};
use std::net::{SocketAddr, TcpListener, TcpStream};
use std::os::fd::{AsRawFd, RawFd};
use std::os::unix::fs::FileTypeExt;
use std::os::unix::net::{UnixListener, UnixStream};
use std::path::{Path, PathBuf};

/// The socket's name in the control folder, where nobody says another.
const NAME: &str = "page";
/// The rights of the socket: those of its user alone.
const RIGHTS: u32 = 0o600;

/// Where a page is to be served.
#[derive(Clone, Debug, PartialEq, Eq)]
pub enum Place {
    /// In the control folder.
    Usual,
    /// By the socket of this path.
    Unix(PathBuf),
    /// On this machine.
    Loopback(SocketAddr),
}

impl Place {
    /// The place that these words mean.
    pub fn of(words: &[String]) -> Result<Place, String> {
        let wrong = |word: &str| {
            Err(format!(
                "--serve wants unix:PATH, or 127.0.0.1:PORT or [::1]:PORT, and not {word}: on other addresses a page \
                 would go over the net as plain text; let a proxy with TLS serve the socket there"
            ))
        };
        match words {
            [] => Ok(Place::Usual),
            [word] => match (word.strip_prefix("unix:"), word.parse::<SocketAddr>()) {
                (Some(path), _) if !path.is_empty() => Ok(Place::Unix(path.into())),
                (None, Ok(address)) if address.ip().is_loopback() => Ok(Place::Loopback(address)),
                _ => wrong(word),
            },
            [_, more, ..] => wrong(more),
        }
    }
}

/// Where visitors come.
#[derive(Debug)]
pub enum Listener {
    /// By a socket of this path.
    Unix(UnixListener, PathBuf),
    /// Over the loopback, with this token.
    Loopback(TcpListener, String),
}

impl Listener {
    /// Listens there.
    pub fn open(place: &Place, folder: &Path) -> io::Result<Self> {
        let listener = match place {
            Place::Usual => Listener::unix(std::path::absolute(folder)?.join(NAME))?,
            Place::Unix(path) => Listener::unix(std::path::absolute(path)?)?,
            Place::Loopback(address) => Listener::Loopback(TcpListener::bind(address)?, random()?),
        };
        match &listener {
            Listener::Unix(socket, _) => socket.set_nonblocking(true)?,
            Listener::Loopback(socket, _) => socket.set_nonblocking(true)?,
        }
        Ok(listener)
    }

    fn unix(path: PathBuf) -> io::Result<Self> {
        let other = |text: &str| Err(io::Error::new(io::ErrorKind::AddrInUse, format!("{} {text}", path.display())));
        match fs::symlink_metadata(&path) {
            Ok(found) if !found.file_type().is_socket() => return other("is there, and is no socket"),
            Ok(_) if UnixStream::connect(&path).is_ok() => return other("is served already"),
            // Whoever has served it was killed.
            Ok(_) => fs::remove_file(&path)?,
            Err(_) => {}
        }
        let named = |error: io::Error| io::Error::new(error.kind(), format!("{}: {error}", path.display()));
        let socket = os::with_rights(RIGHTS, || UnixListener::bind(&path)).map_err(named)?;
        Ok(Listener::Unix(socket, path))
    }

    /// Whoever comes next.
    pub fn accept(&self) -> io::Result<Stream> {
        let stream = match self {
            Listener::Unix(socket, _) => Stream::Unix(socket.accept()?.0),
            Listener::Loopback(socket, _) => Stream::Tcp(socket.accept()?.0),
        };
        match &stream {
            Stream::Unix(stream) => stream.set_nonblocking(true)?,
            Stream::Tcp(stream) => stream.set_nonblocking(true)?,
        }
        Ok(stream)
    }

    /// Whether one with this request is let in: to a socket the system has let him.
    pub fn admits(&self, head: &Head) -> bool {
        let Listener::Loopback(_, token) = self else { return true };
        let bearer = head.field("authorization").and_then(|field| field.strip_prefix("Bearer "));
        let given = [head.word("token"), bearer];
        given.into_iter().flatten().any(|given| is_same(given.as_bytes(), token.as_bytes()))
    }

    /// The place in words, with all that a visitor needs.
    pub fn words(&self) -> io::Result<String> {
        Ok(match self {
            Listener::Unix(_, path) => format!("unix:{}", path.display()),
            Listener::Loopback(socket, token) => format!("http://{}/?token={token}", socket.local_addr()?),
        })
    }

    /// What is waited for.
    pub fn descriptor(&self) -> RawFd {
        match self {
            Listener::Unix(socket, _) => socket.as_raw_fd(),
            Listener::Loopback(socket, _) => socket.as_raw_fd(),
        }
    }

    /// Takes the socket away.
    pub fn close(self) {
        if let Listener::Unix(_, path) = self {
            let _ = fs::remove_file(path);
        }
    }
}

/// A connection.
#[derive(Debug)]
pub enum Stream {
    /// By a Unix socket.
    Unix(UnixStream),
    /// Over the loopback.
    Tcp(TcpStream),
}

impl Stream {
    /// What is waited for.
    pub fn descriptor(&self) -> RawFd {
        match self {
            Stream::Unix(stream) => stream.as_raw_fd(),
            Stream::Tcp(stream) => stream.as_raw_fd(),
        }
    }

    /// Reads what there is.
    pub fn read(&mut self, room: &mut [u8]) -> io::Result<usize> {
        match self {
            Stream::Unix(stream) => stream.read(room),
            Stream::Tcp(stream) => stream.read(room),
        }
    }

    /// Writes what is taken.
    pub fn write(&mut self, bytes: &[u8]) -> io::Result<usize> {
        match self {
            Stream::Unix(stream) => stream.write(bytes),
            Stream::Tcp(stream) => stream.write(bytes),
        }
    }

    /// Nothing more is written.
    pub fn end_writing(&self) {
        let how = std::net::Shutdown::Write;
        let _ = match self {
            Stream::Unix(stream) => stream.shutdown(how),
            Stream::Tcp(stream) => stream.shutdown(how),
        };
    }
}

/// Whether two texts are the same, in a time that doesn't say where they differ.
fn is_same(one: &[u8], other: &[u8]) -> bool {
    let differ = one.iter().zip(other).fold(0, |differ, (a, b)| black_box(differ | (a ^ b)));
    one.len() == other.len() && differ == 0
}

/// A word by chance, that nobody guesses.
pub fn random() -> io::Result<String> {
    let mut bytes = [0; 16];
    File::open("/dev/urandom")?.read_exact(&mut bytes)?;
    let mut word = String::new();
    for byte in bytes {
        let _ = write!(word, "{byte:02x}");
    }
    Ok(word)
}

#[cfg(test)]
mod tests {
    use super::*;

    fn of(words: &[&str]) -> Result<Place, String> {
        Place::of(&words.iter().map(|word| (*word).to_string()).collect::<Vec<_>>())
    }

    #[test]
    fn a_place_is_a_socket_or_on_this_machine() {
        assert_eq!(of(&[]), Ok(Place::Usual));
        assert_eq!(of(&["unix:x/y"]), Ok(Place::Unix("x/y".into())));
        assert_eq!(of(&["127.0.0.1:80"]), Ok(Place::Loopback(([127, 0, 0, 1], 80).into())));
        assert!(matches!(of(&["[::1]:0"]), Ok(Place::Loopback(_))));
        for bad in [&["0.0.0.0:80"][..], &["8080"], &["unix:"], &["10.0.0.1:80"], &["localhost:80"], &["unix:a", "b"]] {
            assert!(of(bad).unwrap_err().contains("127.0.0.1:PORT"), "{bad:?}");
        }
    }

    #[test]
    fn a_token_is_let_in_by_the_address_or_a_field_and_nothing_else_is() {
        let token = random().unwrap();
        assert!(token.len() == 32 && token != random().unwrap());
        let listener = Listener::Loopback(TcpListener::bind("127.0.0.1:0").unwrap(), token.clone());
        let admits = |request: String| listener.admits(&Head::read(request.as_bytes()).unwrap().unwrap());
        assert!(admits(format!("GET /?token={token} HTTP/1.1\n\n")));
        assert!(admits(format!("GET /events?after=1&token={token} HTTP/1.1\n\n")));
        assert!(admits(format!("GET / HTTP/1.1\nAuthorization: Bearer {token}\n\n")));
        for wrong in [String::new(), token[1..].to_string(), format!("{token}0"), token.to_uppercase() + "x"] {
            assert!(!admits(format!("GET /?token={wrong} HTTP/1.1\nAuthorization: Bearer {wrong}\n\n")), "{wrong}");
        }
        assert!(!admits("GET / HTTP/1.1\n\n".to_string()));
    }
}
