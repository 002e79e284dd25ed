//! Processes that nobody waits for any more: descendants that have left the group of the child that started them, which the
//! daemon adopts once their parent has ended; and what a daemon that was killed has left.

use crate::os;
use crate::proc_files::{self, Process};
use std::collections::BTreeMap;
use std::thread;
use std::time::{Duration, Instant};

/// So much time is between two looks whether they are gone.
const PAUSE: Duration = Duration::from_millis(10);
/// What was killed is given up after so long.
const LAST: Duration = Duration::from_secs(2);

/// What was found and ended.
#[derive(Debug, Default, PartialEq, Eq)]
pub struct Swept {
    /// So many were asked to end or killed, and have ended. Those that were dying already aren't counted.
    pub ended: u64,
    /// These the system doesn't let end.
    pub left: Vec<i32>,
}

/// Ends all children of this process and reaps them, and those that come to it by their end, until none is left. Each has a second
/// to end by itself, or none where there is no time. Those that are found besides are ended, too.
pub fn end_children(is_hurried: bool, besides: impl Fn() -> Vec<Process>) -> Swept {
    let find = || {
        while let Some(pid) = os::ended_child() {
            os::reap(pid);
        }
        together(proc_files::children(), besides())
    };
    end_all(find, Duration::from_secs(u64::from(!is_hurried)))
}

/// Each process once.
pub fn together(mut some: Vec<Process>, others: Vec<Process>) -> Vec<Process> {
    for other in others {
        if !some.iter().any(|one| one.pid == other.pid) {
            some.push(other);
        }
    }
    some
}

/// Ends all that is found, until nothing is. Each is asked to end when it is seen first; all are killed once this time is over.
/// What the system doesn't let end then is given up two seconds later.
pub fn end_all(find: impl Fn() -> Vec<Process>, patience: Duration) -> Swept {
    let mut seen: BTreeMap<i32, Process> = BTreeMap::new();
    let begun = Instant::now();
    let mut killed: Option<Instant> = None;
    let left = loop {
        let found = find();
        if found.is_empty() || killed.is_some_and(|killed| killed.elapsed() >= LAST) {
            break found;
        }
        if killed.is_none() && begun.elapsed() >= patience {
            killed = Some(Instant::now());
        }
        for process in found {
            let is_new = !seen.contains_key(&process.pid);
            seen.entry(process.pid).or_insert(process);
            if killed.is_some() {
                let _ = os::signal_process(process.pid, os::SIGKILL);
            } else if is_new {
                let _ = os::signal_process(process.pid, os::SIGTERM);
                let _ = os::signal_process(process.pid, os::SIGCONT);
            }
        }
        thread::sleep(PAUSE);
    };
    let left: Vec<i32> = left.iter().map(|process| process.pid).collect();
    let ended = seen.values().filter(|process| !process.is_dying && !left.contains(&process.pid)).count();
    Swept { ended: ended as u64, left }
}
