//! The beginning of a process: between its fork and its program it goes to its folder, and opens its files and its program. Where
//! these are far away that may take long, and is waited for as all else is.

use crate::os::{self, READABLE, Waited};
use crate::spawn::NotStarted;
use otp_supervision::Reason;
use std::io::{self, PipeReader};
use std::os::fd::{AsFd, AsRawFd};
use std::time::{Duration, Instant};

/// A process whose program hasn't begun.
#[derive(Debug)]
pub struct Beginning {
    pipe: PipeReader,
    told: Vec<u8>,
}

/// What a process says that can't become its program.
pub fn told_by(why: &NotStarted) -> String {
    format!("{}\n{}", why.reason, why.text)
}

impl Beginning {
    /// A process that tells by this pipe, which never waits.
    pub fn new(pipe: PipeReader) -> Self {
        Beginning { pipe, told: Vec::new() }
    }

    /// What is waited for.
    pub fn waited(&self) -> Waited {
        Waited::new(self.pipe.as_raw_fd(), READABLE)
    }

    /// Whether its program has begun, or why it can't; nothing so far where that isn't known.
    pub fn look(&mut self) -> Option<Result<(), NotStarted>> {
        let mut room = [0; 512];
        loop {
            match os::read_once(self.pipe.as_fd(), &mut room) {
                Ok(count) if count > 0 => self.told.extend_from_slice(&room[..count]),
                Err(error) if error.kind() == io::ErrorKind::WouldBlock => return None,
                Err(error) if error.kind() == io::ErrorKind::Interrupted => {}
                _ => return Some(self.told()),
            }
        }
    }

    /// How it began, for which so long is waited.
    pub fn wait(&mut self, time: Duration) -> Option<Result<(), NotStarted>> {
        let begun = Instant::now();
        loop {
            let told = self.look();
            let left = time.saturating_sub(begun.elapsed());
            if told.is_some() || left.is_zero() || os::wait(&mut [self.waited()], Some(left)).is_err() {
                return told;
            }
        }
    }

    fn told(&self) -> Result<(), NotStarted> {
        if self.told.is_empty() {
            return Ok(());
        }
        let told = String::from_utf8_lossy(&self.told);
        let (reason, text) = told.split_once('\n').unwrap_or(("", &told));
        let reason = reason.parse().unwrap_or_else(|_| Reason::error("not_started"));
        Err(NotStarted { reason, text: text.to_string() })
    }
}

#[cfg(test)]
mod tests {
    use super::*;
    use std::io::Write;

    #[test]
    fn it_is_known_once_the_pipe_has_ended() {
        for (told, wanted) in [
            ("", None),
            ("error:no_folder\nthere is no folder /x", Some(("error:no_folder", "there is no folder /x"))),
            ("?", Some(("error:not_started", "?"))),
        ] {
            let (pipe, mut tells) = io::pipe().unwrap();
            os::never_wait(pipe.as_fd()).unwrap();
            let mut beginning = Beginning::new(pipe);
            assert!(beginning.look().is_none());
            tells.write_all(told.as_bytes()).unwrap();
            assert!(beginning.wait(Duration::from_millis(1)).is_none());
            drop(tells);
            let said = beginning.wait(Duration::from_secs(60)).unwrap().err();
            let said = said.map(|why| (why.reason.to_string(), why.text));
            assert_eq!(said, wanted.map(|(reason, text)| (reason.to_string(), text.to_string())));
        }
    }
}
