//! The tree, with a count of how often it was called: tests compare that with what is needed.

use otp_supervision::Tree;
use std::ops::{Deref, DerefMut};

/// A tree. Whoever calls it borrows it to change it, each time anew.
#[derive(Debug)]
pub struct Counted {
    tree: Tree,
    /// So often it was called.
    #[cfg(test)]
    pub calls: u64,
}

impl From<Tree> for Counted {
    fn from(tree: Tree) -> Self {
        Counted {
            tree,
            #[cfg(test)]
            calls: 0,
        }
    }
}

impl Deref for Counted {
    type Target = Tree;

    fn deref(&self) -> &Tree {
        &self.tree
    }
}

impl DerefMut for Counted {
    fn deref_mut(&mut self) -> &mut Tree {
        #[cfg(test)]
        {
            self.calls += 1;
        }
        &mut self.tree
    }
}

#[cfg(test)]
mod tests {
    use crate::daemon::Daemon;
    use crate::log::Log;
    use crate::mark::Mark;
    use crate::{os, plan};
    use otp_supervision::{ProcessId, Tree};
    use std::path::Path;
    use std::thread;
    use std::time::Duration;

    /// A root with so many pools, each with one process.
    fn daemon_of(pools: usize) -> Daemon {
        let pool = "[[child]]\nid = \"p{}\"\nstart = \"x\"\n[child.tree]\nintensity = 1000\n[[child.tree.child]]\nid = \"a\"\nstart = \"a\"\n";
        let text: String = (0..pools).map(|number| pool.replace("{}", &number.to_string())).collect();
        let tree = Tree::open(format!("intensity = 1000\n[[child]]\nid = \"b\"\nstart = \"a\"\n{text}")).unwrap();
        let plans = plan::read("f", "[a]\ncommand = ['sleep', '1000']\n").unwrap();
        let mark = Mark::new(Path::new("/dev/null")).unwrap();
        let log = Log::open(Some(Path::new("/dev/null")), None, true).unwrap();
        Daemon::new(tree, plans, mark, log, None, os::signals_as_descriptor().unwrap()).unwrap()
    }

    /// Turns of the daemon, until so many processes have begun.
    fn settle(daemon: &mut Daemon, count: usize) {
        while daemon.live.len() < count || daemon.live.values().any(|live| !live.has_begun()) {
            let telling: Vec<ProcessId> = daemon.live.keys().copied().collect();
            daemon.turn(&[], &telling);
            thread::sleep(Duration::from_millis(1));
        }
        daemon.time_left();
    }

    /// Calls of the library from the end of the process with this path to the next sleep; none where its program hasn't begun by then.
    fn calls_for_one_exit(daemon: &mut Daemon, path: &str) -> Option<u64> {
        let pid = daemon.live.values().find(|live| live.path == path).unwrap().pid;
        os::signal_process(pid, os::SIGKILL).unwrap();
        while os::ended_child() != Some(pid) {
            thread::sleep(Duration::from_millis(1));
        }
        let before = daemon.tree.calls;
        daemon.turn(&[], &[]);
        daemon.time_left();
        let calls = daemon.tree.calls - before;
        let has_begun = daemon.live.values().find(|live| live.path == path && live.pid != pid).unwrap().has_begun();
        settle(daemon, daemon.live.len());
        has_begun.then_some(calls)
    }

    /// The end with its time, the order to start, that it is the only one, that it is up, and that this orders nothing. Looks, which
    /// change nothing, aren't counted. A machine that is so slow that the clock is read anew adds calls: of ten tries one has none.
    #[test]
    fn one_exit_takes_the_calls_that_it_needs_however_many_supervisors_there_are() {
        for pools in [1, 63] {
            let mut daemon = daemon_of(pools);
            daemon.go_on();
            settle(&mut daemon, pools + 1);
            let calls: Vec<u64> = (0..).filter_map(|_| calls_for_one_exit(&mut daemon, "p0/a")).take(10).collect();
            assert_eq!(calls.iter().min(), Some(&5), "{calls:?}");
            // Nothing to tell, and nothing due: nothing is asked.
            let before = daemon.tree.calls;
            daemon.turn(&[], &[]);
            daemon.time_left();
            assert_eq!(daemon.tree.calls, before);
            for live in daemon.live.values() {
                os::signal_process(live.pid, os::SIGKILL).unwrap();
            }
            while !daemon.live.is_empty() {
                daemon.live.retain(|_, live| os::reap(live.pid).is_none());
            }
        }
    }
}
