//! How processes are ended: each by itself, and all at once where a second signal asks for it.

use crate::daemon::Daemon;
use crate::live::{Live, Stage};
use crate::log::{Class, Record};
use crate::os;
use crate::plan::SignalTo;
use crate::strays::Swept;
use otp_supervision::{ChildState, ProcessId, Reason, Shutdown, SupervisorId};
use std::io;
use std::process::ExitStatus;

/// So many milliseconds after all was killed the daemon ends, though a process is left that the system doesn't let end.
const LAST: u64 = 5_000;

/// What was killed of a control group is waited for so many milliseconds.
const EMPTY_WITHIN: u64 = 2_000;

/// Why a process wasn't signalled, which goes on then.
pub(crate) fn refused(error: io::Error) -> String {
    format!("it can't be signalled: {error}")
}

/// The reason of a start that a supervisor which is to stop doesn't wait for.
pub(crate) fn stopped() -> Reason {
    Reason::error("stopped")
}

impl Live {
    /// Whether its supervisor waits until it is up.
    fn is_waited_for(&self) -> bool {
        matches!(self.stage, Stage::Starting(_)) && !self.is_cut
    }

    /// Asks it to end, by its signal. One that stands still is let go on, so that it can do what it has to before its end.
    pub fn ask(&self) -> io::Result<()> {
        if self.is_reaped {
            return Ok(());
        }
        let send = match self.plan.signal_to {
            SignalTo::Group => os::signal_group,
            SignalTo::Process => os::signal_process,
        };
        send(self.pid, self.plan.signal.1)?;
        send(self.pid, os::SIGCONT)
    }
}

/// A process that has ended, of whose control group something is left that was killed.
#[derive(Debug)]
pub(crate) struct Ending {
    number: ProcessId,
    pid: i32,
    status: ExitStatus,
    /// The reading up to which it is waited for.
    until: u64,
}

impl Daemon {
    /// A process was reaped. The tree is told of its end once nothing of its control group lives, so that the next one meets
    /// nothing of it.
    pub(crate) fn end_or_wait(&mut self, number: ProcessId, pid: i32, status: ExitStatus) {
        let Some(live) = self.live.get_mut(&number) else { return };
        live.is_reaped = true;
        if live.is_populated() {
            let until = self.now().saturating_add(EMPTY_WITHIN);
            self.endings.push(Ending { number, pid, status, until });
        } else {
            self.take_end(number, pid, status);
        }
    }

    /// Tells the tree of those that were waited for.
    pub(crate) fn take_endings(&mut self) {
        let now = self.now();
        for ending in std::mem::take(&mut self.endings) {
            let is_left = self.live.get(&ending.number).is_some_and(Live::is_populated);
            if is_left && now < ending.until {
                self.endings.push(ending);
            } else {
                self.take_end(ending.number, ending.pid, ending.status);
            }
        }
    }

    /// Whether a supervisor that is to stop waits for a start of this one: itself, or one above it that waits until it is up.
    pub(crate) fn is_in_the_way(&mut self, supervisor: SupervisorId) -> bool {
        let mut at = supervisor;
        loop {
            let Ok(found) = self.tree.supervisor(at) else { return false };
            if found.is_stopping {
                return true;
            }
            let rows = if at.is_root() { Vec::new() } else { self.tree.children(found.parent).unwrap_or_default() };
            if !rows.iter().any(|row| row.nested == Some(at) && row.state == ChildState::Starting) {
                return false;
            }
            at = found.parent;
        }
    }

    /// Starts that keep a supervisor from its stop are cut short: by the rules it waits for each, so they fail.
    pub(crate) fn cut_starts(&mut self) {
        let starting: Vec<ProcessId> =
            self.live.values().filter(|live| live.is_waited_for()).map(|live| live.process.number).collect();
        for number in starting {
            let Some(supervisor) = self.live.get(&number).map(|live| live.process.supervisor) else { continue };
            if self.is_in_the_way(supervisor) {
                self.cut(number, supervisor);
            }
        }
    }

    /// A process that isn't up is ended as one that is: asked, and killed after the time that its specification has.
    fn cut(&mut self, number: ProcessId, supervisor: SupervisorId) {
        let rows = self.tree.children(supervisor).unwrap_or_default();
        let shutdown = rows.iter().find(|row| row.number == Some(number)).map(|row| row.spec.shutdown);
        let now = self.now();
        let Some(live) = self.live.get_mut(&number) else { return };
        (live.is_cut, live.is_asked) = (true, true);
        let record = Record::new(Class::Remark, "cut_short").text("path", &live.path).number("number", number.number());
        let time = match shutdown {
            Some(Shutdown::Within(time)) => Some(time.as_millis() as u64),
            Some(Shutdown::Infinity) => None,
            _ => Some(0),
        };
        live.kill_at = time.map(|time| now.saturating_add(time));
        let record = if time == Some(0) {
            record
        } else {
            let sent = live.ask();
            record.text("signal", live.plan.signal.0).maybe("text", sent.err().map(refused))
        };
        self.remark(match time {
            Some(time) if time > 0 => record.number("within_ms", time),
            _ => record,
        });
        self.kill_cut(number);
    }

    /// A process that has to tell that it lives didn't: it is ended by ABRT, so that it can leave a core file, and by KILL.
    pub(crate) fn end_unwatched(&mut self, number: ProcessId) {
        let now = self.now();
        let Some(supervisor) = self.live.get(&number).map(|live| live.process.supervisor) else { return };
        let rows = self.tree.children(supervisor).unwrap_or_default();
        let shutdown = rows.iter().find(|row| row.number == Some(number)).map(|row| row.spec.shutdown);
        let time = match shutdown {
            Some(Shutdown::Within(time)) => time.as_millis() as u64,
            _ => LAST,
        };
        let Some(live) = self.live.get_mut(&number) else { return };
        (live.is_unwatched, live.kill_at) = (true, Some(now.saturating_add(time)));
        let sent = os::signal_process(live.pid, os::SIGABRT);
        let record = Record::new(Class::Remark, "watchdog").text("path", &live.path).number("number", number.number());
        let record = record.text("signal", "ABRT").number("within_ms", time);
        self.remark(record.maybe("text", sent.err().map(refused)));
    }

    /// Kills a process whose start was cut short, or that didn't tell that it lives, once its time is over.
    pub(crate) fn kill_cut(&mut self, number: ProcessId) {
        let now = self.now();
        let Some(live) = self.live.get_mut(&number).filter(|live| live.kill_at.is_some_and(|at| at <= now)) else {
            return;
        };
        live.kill_at = None;
        let sent = live.kill();
        let what = if live.is_unwatched { "watchdog" } else { "cut_short" };
        let record = Record::new(Class::Remark, what).text("path", &live.path).number("number", number.number());
        self.remark(record.text("signal", "KILL").maybe("text", sent.err().map(refused)));
    }

    /// All processes are killed, and no other is started any more.
    pub(crate) fn kill_all(&mut self) {
        if self.kill_until.is_none() {
            self.kill_until = Some(self.now().saturating_add(LAST));
            let text = "a second signal: all processes are killed";
            self.remark(Record::new(Class::Remark, "killing").text("text", text));
        }
        for live in self.live.values() {
            let _ = live.kill();
        }
    }

    /// Whether all was killed so long ago that what is left isn't waited for.
    pub(crate) fn gives_up(&self) -> bool {
        self.kill_until.is_some_and(|until| until <= self.now())
    }

    /// Tells of what was ended though it is no process of the tree, and of all that couldn't be.
    pub(crate) fn tell_swept(&mut self, swept: &Swept, text: &str) {
        if swept.ended > 0 {
            self.remark(Record::new(Class::Remark, "strays").number("killed", swept.ended).text("text", text));
        }
        for &pid in &swept.left {
            let live = self.live.values().find(|live| live.pid == pid);
            let record = Record::new(Class::Remark, "left").maybe("path", live.map(|live| live.path.clone()));
            let record = record.number("pid", pid as u64).text("text", "it can't be ended, and runs on");
            self.remark(record);
        }
    }
}
