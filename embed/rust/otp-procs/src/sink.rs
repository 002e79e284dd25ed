//! Where lines and output are written to, without waiting for whoever reads them.

use crate::os::{self, WRITABLE, Waited};
use crate::rotate::{Rotation, Turning};
use std::fs::{File, Metadata};
use std::io;
use std::os::fd::{AsFd, AsRawFd, BorrowedFd};
use std::path::Path;
use std::time::Duration;

/// So many bytes a pipe takes at once, if it takes any.
const PIECE: usize = 4096;

#[derive(Debug)]
enum To {
    Output(io::Stdout),
    Errors(io::Stderr),
    File(File),
}

/// Where something is written to.
#[derive(Debug)]
pub struct Sink {
    to: To,
    /// It is a file on a disk, which takes all that there is room for.
    is_regular: bool,
    /// It is begun anew once it is too large.
    turning: Option<Turning>,
}

impl Sink {
    /// The daemon's own output.
    pub fn output() -> Self {
        Sink::new(To::Output(io::stdout()))
    }

    /// The daemon's own errors.
    pub fn errors() -> Self {
        Sink::new(To::Errors(io::stderr()))
    }

    /// A file that is open.
    pub fn file(file: File) -> Self {
        Sink::new(To::File(file))
    }

    /// A file that is begun anew once it is too large.
    pub fn turning(path: &Path, rotation: Rotation) -> io::Result<Self> {
        let file = os::append_to(path)?;
        let turning = Turning::new(path, rotation, &file);
        let mut sink = Sink::file(file);
        // A device or a pipe has no size.
        sink.turning = Some(turning).filter(|_| sink.is_regular);
        Ok(sink)
    }

    fn new(to: To) -> Self {
        let mut sink = Sink { to, is_regular: false, turning: None };
        sink.is_regular = sink.metadata().is_ok_and(|found| found.is_file());
        sink
    }

    fn metadata(&self) -> io::Result<Metadata> {
        File::from(self.as_fd().try_clone_to_owned()?).metadata()
    }

    /// How long the file is, if it is one on a disk.
    pub fn size(&self) -> Option<u64> {
        self.metadata().ok().filter(Metadata::is_file).map(|found| found.len())
    }

    /// Waits until it can be written to.
    pub fn waited(&self) -> Waited {
        Waited::new(self.as_fd().as_raw_fd(), WRITABLE)
    }

    /// Writes what is taken at once: how many bytes were, and what the system has against the next one.
    pub fn write(&mut self, bytes: &[u8]) -> (usize, Option<io::Error>) {
        let Some(mut turning) = self.turning.take() else { return self.write_on(bytes) };
        let done = self.write_turning(&mut turning, bytes);
        self.turning = Some(turning);
        done
    }

    fn write_turning(&mut self, turning: &mut Turning, bytes: &[u8]) -> (usize, Option<io::Error>) {
        if let To::File(open) = &self.to
            && let Ok(Some(file)) = turning.replaced(open)
        {
            self.to = To::File(file);
        }
        let (mut written, mut unturned) = (0, None);
        while written < bytes.len() {
            let share = turning.share(&bytes[written..]);
            if share == 0 {
                // Where no new one can be begun the old one goes on.
                match turning.turn() {
                    Ok(file) => self.to = To::File(file),
                    Err(why) => unturned = Some(io::Error::other(format!("no new file can be begun: {why}"))),
                }
                continue;
            }
            let (count, error) = self.write_on(&bytes[written..written + share]);
            turning.has_written(&bytes[written..written + count]);
            written += count;
            if count < share {
                return (written, error);
            }
        }
        (written, unturned)
    }

    fn write_on(&self, bytes: &[u8]) -> (usize, Option<io::Error>) {
        let mut written = 0;
        while written < bytes.len() && (self.is_regular || self.takes()) {
            let end = if self.is_regular { bytes.len() } else { bytes.len().min(written + PIECE) };
            match os::write_once(self.as_fd(), &bytes[written..end]) {
                Ok(count) if count > 0 => written += count,
                Err(error) if error.kind() == io::ErrorKind::Interrupted => {}
                Err(error) if error.kind() != io::ErrorKind::WouldBlock => return (written, Some(error)),
                _ => break,
            }
        }
        (written, None)
    }

    /// Whether a write of a piece doesn't wait: it is taken, or refused.
    fn takes(&self) -> bool {
        let mut waited = [self.waited()];
        os::wait(&mut waited, Some(Duration::ZERO)).is_ok() && waited[0].is_seen()
    }
}

impl AsFd for Sink {
    fn as_fd(&self) -> BorrowedFd<'_> {
        match &self.to {
            To::Output(output) => output.as_fd(),
            To::Errors(errors) => errors.as_fd(),
            To::File(file) => file.as_fd(),
        }
    }
}
