//! The processes that run: whether they are up, and with which reason they end.

use crate::beginning::Beginning;
use crate::groups::{Group, Usage};
use crate::handover::Left;
use crate::notify::{Ear, News};
use crate::os::{self, READABLE, Waited};
use crate::outlet::{Heard, Outlet, Room};
use crate::plan::{Plan, READY_WITHIN, Ready};
use crate::spawn::{NotStarted, Spawned};
use otp_supervision::{Process, Reason};
use std::io::{self, PipeReader};
use std::os::fd::{AsFd, AsRawFd};
use std::os::unix::process::ExitStatusExt;
use std::process::ExitStatus;
use std::rc::Rc;

/// Where a process is between its start and its end.
#[derive(Clone, Copy, Debug, PartialEq, Eq)]
pub enum Stage {
    /// It was started at this reading, and isn't up.
    Starting(u64),
    /// It is up since this reading.
    Up(u64),
}

/// A process that was started and hasn't been reaped.
#[derive(Debug)]
#[allow(clippy::struct_excessive_bools)] // each is a fact of its own
pub struct Live {
    /// As the tree names it.
    pub process: Process,
    /// Its path in the tree.
    pub path: String,
    /// Its number in the system, and that of its group.
    pub pid: i32,
    /// Where it is.
    pub stage: Stage,
    /// It was asked to shut down.
    pub is_asked: bool,
    /// It was killed, as the tree has ordered.
    pub is_killed: bool,
    /// It has told that it is ready, or doesn't have to.
    pub is_ready: bool,
    /// It wasn't up in time, and was killed.
    pub is_late: bool,
    /// Its start isn't waited for: it was asked to end, though it isn't up.
    pub is_cut: bool,
    /// Once it is cut, it is killed at this reading.
    pub kill_at: Option<u64>,
    /// What it is run by.
    pub plan: Rc<Plan>,
    /// It has ended and was reaped, so that its number may be another's; what is left of its group is waited for.
    pub is_reaped: bool,
    outlets: Vec<Outlet>,
    notify: Option<PipeReader>,
    group: Option<Group>,
    ear: Option<Ear>,
    /// How it is, in its own words.
    pub words: Option<String>,
    /// So much more time it has asked for, in milliseconds.
    extended: u64,
    /// It has to tell that it lives before this reading.
    watched_until: Option<u64>,
    /// It didn't, and was ended.
    pub is_unwatched: bool,
    /// By which it tells that its program has begun; nothing where it has, or can't.
    beginning: Option<Beginning>,
    /// Why it can't.
    pub refused: Option<NotStarted>,
}

impl Live {
    /// A process that was just started.
    pub fn new(process: Process, path: String, plan: Rc<Plan>, spawned: Spawned, reading: u64) -> Self {
        Live {
            process,
            path,
            pid: spawned.pid,
            stage: Stage::Starting(reading),
            is_asked: false,
            is_killed: false,
            is_ready: false,
            is_late: false,
            is_cut: false,
            kill_at: None,
            plan,
            is_reaped: false,
            outlets: spawned.outlets,
            notify: spawned.notify,
            group: spawned.group,
            ear: spawned.ear,
            words: None,
            extended: 0,
            watched_until: None,
            is_unwatched: false,
            beginning: spawned.beginning,
            refused: None,
        }
    }

    /// One that runs since before the program was replaced.
    pub fn left_by(left: &Left, process: Process, plan: Rc<Plan>) -> Result<Self, String> {
        let mut outlets = Vec::new();
        for outlet in &left.outlets {
            outlets.extend(Outlet::left_by(outlet, &plan, &left.path, left.pid).map_err(|why| why.text)?);
        }
        let ear = left.ear.as_ref().and_then(|(fd, name)| Some(Ear::left_by(os::left_open(*fd)?, name)));
        let group = left.group.as_deref().map(Group::left_by).transpose().map_err(|error| error.to_string())?;
        let notify = os::left_open(left.notify).map(PipeReader::from);
        let spawned = Spawned { pid: left.pid, beginning: None, outlets, notify, group, ear };
        Ok(Live {
            stage: Stage::Up(left.since),
            is_ready: left.is_ready,
            is_late: left.is_late,
            is_unwatched: left.is_unwatched,
            kill_at: left.kill_at,
            words: left.words.clone(),
            extended: left.extended,
            watched_until: left.watched_until,
            ..Live::new(process, left.path.clone(), plan, spawned, left.since)
        })
    }

    /// What is left of it to a later program, if it is up.
    pub fn left(&self) -> Option<Left> {
        let Stage::Up(since) = self.stage else { return None };
        Some(Left {
            number: self.process.number.number(),
            path: self.path.clone(),
            above: None,
            start: self.process.start.to_string(),
            pid: self.pid,
            since,
            is_ready: self.is_ready,
            is_late: self.is_late,
            is_unwatched: self.is_unwatched,
            kill_at: self.kill_at,
            extended: self.extended,
            watched_until: self.watched_until,
            words: self.words.clone(),
            notify: self.notify.as_ref().map_or(-1, AsRawFd::as_raw_fd),
            ear: self.ear.as_ref().map(Ear::left),
            group: self.group.as_ref().map(|group| group.folder().to_path_buf()),
            plan: self.plan.said.clone(),
            outlets: self.outlets.iter().map(Outlet::left).collect(),
        })
    }

    /// Something of its output waits that only this program can pass on.
    pub fn has_unsent(&self) -> bool {
        self.outlets.iter().any(Outlet::has_unsent)
    }

    /// Whether its program has begun.
    pub fn has_begun(&self) -> bool {
        self.beginning.is_none() && self.refused.is_none()
    }

    /// Looks whether its program has begun; whether that was so at this reading, and not before.
    pub fn begins(&mut self, now: u64) -> bool {
        let Some(told) = self.beginning.as_mut().and_then(Beginning::look) else { return false };
        self.beginning = None;
        self.refused = told.err();
        if let (Ready::After(_), Stage::Starting(_)) = (&self.plan.ready, self.stage) {
            self.stage = Stage::Starting(now);
        }
        self.has_begun()
    }

    /// How long it may take until it begins.
    fn begins_within(&self) -> Option<u64> {
        match self.plan.ready {
            Ready::Start | Ready::After(_) => Some(READY_WITHIN),
            Ready::Line(_) | Ready::Notify(_) | Ready::Systemd => self.plan.ready_within,
        }
    }

    /// Opens the file anew to which the daemon passes its output on. One that a process writes to by itself stays its own.
    pub fn reopen(&mut self) {
        for outlet in &mut self.outlets {
            outlet.reopen(&self.plan);
        }
    }

    /// Kills it, and all of its process group and its control group.
    pub fn kill(&self) -> io::Result<()> {
        let alone = if self.is_reaped { Ok(()) } else { os::signal_group(self.pid, os::SIGKILL) };
        self.group.as_ref().map_or(alone, Group::kill)
    }

    /// Whether something of its control group lives, though it has ended itself.
    pub fn is_populated(&self) -> bool {
        self.group.as_ref().is_some_and(Group::is_populated)
    }

    /// What it takes, with all that it has started.
    pub fn usage(&self) -> Option<Usage> {
        self.group.as_ref().map(Group::usage)
    }

    /// The reading at which it is up, or its start has failed, if it says nothing before.
    pub fn due(&self) -> Option<u64> {
        let since = match self.stage {
            _ if self.is_cut || self.is_unwatched => return self.kill_at,
            Stage::Up(_) if self.is_reaped || self.is_asked => return None,
            Stage::Up(_) if self.is_ready => return self.watched_until,
            Stage::Up(since) | Stage::Starting(since) => since.saturating_add(self.extended),
        };
        if !self.has_begun() {
            return self.begins_within().filter(|_| !self.is_late).map(|time| since.saturating_add(time));
        }
        match self.plan.ready {
            Ready::Start => Some(since),
            Ready::After(time) => Some(since.saturating_add(time)),
            Ready::Line(_) | Ready::Notify(_) | Ready::Systemd if self.is_late => None,
            Ready::Line(_) | Ready::Notify(_) | Ready::Systemd => {
                self.plan.ready_within.map(|time| since.saturating_add(time))
            }
        }
    }

    /// Whether it counts as up when that time has come; else its start has failed then.
    pub fn is_up_when_due(&self) -> bool {
        self.has_begun() && matches!(self.plan.ready, Ready::Start | Ready::After(_))
    }

    /// What is waited for: that it tells something, or that what it has told can be passed on.
    pub fn waited(&self) -> impl Iterator<Item = Waited> {
        let output = self.outlets.iter().filter_map(Outlet::waited);
        let notify = self.notify.as_ref().map(|pipe| Waited::new(pipe.as_raw_fd(), READABLE));
        let beginning = self.beginning.as_ref().map(Beginning::waited);
        output.chain(notify).chain(self.ear.as_ref().map(Ear::waited)).chain(beginning)
    }

    /// Reads what it has written; whether that tells that it is up. Once it has ended it is the last time.
    pub fn read(&mut self, is_last: bool, room: &mut Room, tell: &mut dyn FnMut(&str, Heard<'_>)) -> bool {
        let mut is_up = self.read_notify();
        for outlet in &mut self.outlets {
            is_up |= outlet.take(is_last, room, &mut |heard| tell(&self.path, heard));
        }
        self.outlets.retain(|outlet| !outlet.is_over());
        is_up
    }

    /// For how long it was up.
    pub fn up_for(&self, now: u64) -> u64 {
        match self.stage {
            Stage::Up(since) => now.saturating_sub(since),
            Stage::Starting(_) => 0,
        }
    }

    /// It is up, or lives: from now on it is watched, if it has to tell of itself.
    pub fn watch(&mut self, now: u64) {
        self.watched_until = self.plan.watchdog.map(|time| now.saturating_add(time));
    }

    /// Hears what it tells by its socket; whether that is that it is up.
    pub fn hear(&mut self, now: u64) -> bool {
        let Some(ear) = &self.ear else { return false };
        let own = self.plan.who.becomes.uid;
        let heard = ear.hear(|user| user == os::own_user() || user == 0 || Some(user) == own);
        let mut is_up = false;
        for news in heard {
            match news {
                News::Ready => is_up |= self.plan.ready == Ready::Systemd,
                News::Status(words) => self.words = Some(words).filter(|words| !words.is_empty()),
                News::Alive if self.watched_until.is_some() => self.watch(now),
                News::Dead if self.watched_until.is_some() => self.watched_until = Some(now),
                News::Extend(time) => match self.watched_until {
                    Some(until) => self.watched_until = Some(until.max(now.saturating_add(time))),
                    None => self.extended = self.extended.max(time),
                },
                News::Alive | News::Dead => {}
            }
        }
        is_up
    }

    fn read_notify(&mut self) -> bool {
        let mut room = [0; 64];
        while let Some(pipe) = &self.notify {
            match os::read_once(pipe.as_fd(), &mut room) {
                Ok(count) if count > 0 => {
                    if room[..count].contains(&b'\n') {
                        self.notify = None;
                        return true;
                    }
                }
                Err(error) if error.kind() == io::ErrorKind::WouldBlock => return false,
                Err(error) if error.kind() == io::ErrorKind::Interrupted => {}
                // It has closed the descriptor, and can tell nothing more.
                _ => self.notify = None,
            }
        }
        false
    }

    /// What of its output is still to be written, once it has ended.
    pub fn take_rest(&mut self) -> Vec<Outlet> {
        std::mem::take(&mut self.outlets)
    }

    /// With which reason the tree is told its end.
    pub fn reason_of(&self, status: ExitStatus) -> Reason {
        match (status.code(), status.signal()) {
            _ if self.is_unwatched => Reason::error("watchdog"),
            _ if self.is_late => Reason::error("not_ready_in_time"),
            (Some(0), _) => Reason::Normal,
            (Some(code), _) if self.plan.normal_status.contains(&code) => Reason::Normal,
            (Some(code), _) => Reason::error(&format!("status_{code}")),
            (None, Some(os::SIGKILL)) if self.group.as_ref().is_some_and(Group::is_out_of_memory) => {
                Reason::error("out_of_memory")
            }
            (None, Some(os::SIGKILL)) => Reason::Killed,
            (None, Some(signal)) if self.is_asked && signal == self.plan.signal.1 => Reason::Shutdown,
            (None, signal) => Reason::error(&format!("signal_{}", signal.unwrap_or(0))),
        }
    }
}

/// A status as the log has it: `status 3` or `signal 9`.
pub fn text_of(status: ExitStatus) -> String {
    match (status.code(), status.signal()) {
        (Some(code), _) => format!("status {code}"),
        (None, signal) => format!("signal {}", signal.unwrap_or(0)),
    }
}

#[cfg(test)]
mod tests {
    use super::*;
    use crate::plan;
    use otp_supervision::{Name, ProcessId, SupervisorId};
    use std::os::linux::net::SocketAddrExt;
    use std::os::unix::net::{SocketAddr, UnixDatagram};

    /// A process with these keys that was started at 1,000, and what it tells by.
    fn live(keys: &str) -> (Live, UnixDatagram) {
        let plans = plan::read("f", &format!("[a]\ncommand = ['x']\nready = 'sd_notify'\n{keys}\n")).unwrap();
        let ear = Ear::new().unwrap();
        let teller = UnixDatagram::unbound().unwrap();
        let name = ear.variable();
        teller.connect_addr(&SocketAddr::from_abstract_name(&name[1..]).unwrap()).unwrap();
        let name = Name::new("a").unwrap();
        let process = Process::new(SupervisorId::ROOT, Some(name), name, ProcessId::new(1));
        let spawned =
            Spawned { pid: 0, beginning: None, outlets: Vec::new(), notify: None, group: None, ear: Some(ear) };
        (Live::new(process, "a".to_string(), plans["a"].clone(), spawned, 1_000), teller)
    }

    #[test]
    fn a_start_may_ask_for_more_time() {
        let (mut live, teller) = live("ready_within = 500");
        assert_eq!(live.due(), Some(1_500));
        teller.send(b"EXTEND_TIMEOUT_USEC=2000000").unwrap();
        assert!(!live.hear(1_200));
        assert_eq!(live.due(), Some(3_500));
        teller.send(b"STATUS=at work\nREADY=1").unwrap();
        assert!(live.hear(2_000));
        assert_eq!(live.words.as_deref(), Some("at work"));
    }

    #[test]
    fn a_watched_one_is_due_unless_it_tells_that_it_lives() {
        let (mut live, teller) = live("watchdog = 100");
        // Not before it is up.
        teller.send(b"WATCHDOG=1").unwrap();
        assert!(!live.hear(1_010));
        (live.stage, live.is_ready) = (Stage::Up(1_020), true);
        assert_eq!(live.due(), None);
        live.watch(1_020);
        assert_eq!(live.due(), Some(1_120));
        teller.send(b"WATCHDOG=1").unwrap();
        live.hear(1_090);
        assert_eq!(live.due(), Some(1_190));
        teller.send(b"EXTEND_TIMEOUT_USEC=500000").unwrap();
        live.hear(1_100);
        assert_eq!(live.due(), Some(1_600));
        teller.send(b"WATCHDOG=trigger").unwrap();
        live.hear(1_110);
        assert_eq!(live.due(), Some(1_110));
        live.is_asked = true;
        assert_eq!(live.due(), None);
    }
}
