//! By what a run's processes are known once their daemon was killed: a variable that each has, and hands on to those it starts.

use crate::proc_files::{self, Process};
use crate::strays::{self, Swept};
use std::ffi::{OsStr, OsString};
use std::io;
use std::os::unix::ffi::OsStrExt;
use std::path::Path;
use std::time::Duration;

/// The variable.
pub const VARIABLE: &str = "OTP_RUN";
/// So long they have to end by themselves.
const PATIENCE: Duration = Duration::from_secs(5);

/// A run: which daemon, and of which place. No two daemons have the same mark, and one that follows another has its place.
#[derive(Debug)]
pub struct Mark {
    value: OsString,
    place: OsString,
}

impl Mark {
    /// The mark of this process, whose place is its control folder, or without one its tree file.
    pub fn new(place: &Path) -> io::Result<Self> {
        let place = place.canonicalize().or_else(|_| std::path::absolute(place))?.into_os_string();
        let pid = std::process::id();
        let beginning = proc_files::beginning_of(pid as i32).unwrap_or(0);
        let mut value = OsString::from(format!("{pid}.{beginning}@"));
        value.push(&place);
        Ok(Mark { value, place })
    }

    /// The variable's value.
    pub fn value(&self) -> &OsStr {
        &self.value
    }

    /// Whether a value is that of a daemon of the same place which has ended.
    fn is_left_behind(&self, value: &[u8]) -> bool {
        let daemon = value.strip_suffix(self.place.as_bytes()).and_then(|head| head.strip_suffix(b"@"));
        let numbers = daemon.and_then(|daemon| std::str::from_utf8(daemon).ok()?.split_once('.'));
        let Some((Ok(pid), Ok(beginning))) = numbers.map(|(pid, ticks)| (pid.parse(), ticks.parse())) else {
            return false;
        };
        proc_files::beginning_of(pid) != Some(beginning)
    }

    /// Ends the processes that daemons of the same place have left, if they don't live any more themselves.
    /// Those that are found besides are ended, too.
    pub fn end_left_behind(&self, besides: impl Fn() -> Vec<Process>) -> Swept {
        let find = || {
            let marked = proc_files::with_variable(VARIABLE, |value| self.is_left_behind(value));
            strays::together(marked, besides())
        };
        strays::end_all(find, PATIENCE)
    }
}

#[cfg(test)]
mod tests {
    use super::*;

    #[test]
    fn only_what_a_dead_daemon_of_the_same_place_has_left_is_known() {
        let mark = Mark::new(Path::new("/tmp/../tmp")).unwrap();
        let own = std::process::id();
        let beginning = proc_files::beginning_of(own as i32).unwrap();
        // Another number of this process's, as one has that ran before it.
        assert!(mark.is_left_behind(format!("{own}.{}@/tmp", beginning - 1).as_bytes()));
        assert!(!mark.is_left_behind(mark.value().as_bytes()));
        for other in
            [&b"1.2@/tmp/x"[..], b"1.2@/var/tmp", b"1.2/tmp", b"x.2@/tmp", b"1@/tmp", b"@/tmp", b"", b"1.\xff@/tmp"]
        {
            assert!(!mark.is_left_behind(other), "{}", String::from_utf8_lossy(other));
        }
    }
}
