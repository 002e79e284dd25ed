//! What happens: signals, requests, output, ends of processes, and starts whose time is over.

use crate::control::{Control, Spoken};
use crate::daemon::Daemon;
use crate::ends::{refused, stopped};
use crate::live::{Live, Stage, text_of};
use crate::log::{Class, Record};
use crate::metrics::Last;
use crate::os::{self, Waited};
use crate::page::end_of;
use crate::plan::Ready;
use crate::told::Told;
use otp_supervision::{Note, ProcessId, Reason};
use std::os::unix::process::ExitStatusExt;
use std::process::ExitStatus;

/// So many children are reaped before others have their turn.
const ENDS: usize = 64;
/// So many milliseconds after the first signal to stop another one is the same.
const SAME: u64 = 500;

impl Daemon {
    /// Signals that were sent to the daemon.
    pub(crate) fn take_signals(&mut self) {
        while let Some(sent) = os::next_signal(&self.signals) {
            let record = Record::new(Class::Remark, "signal").number("from_pid", u64::from(sent.pid));
            let record = record.text("name", os::name_of(sent.signal));
            match sent.signal {
                os::SIGCHLD => {}
                // By XFSZ the system tells that a write of the daemon was refused. Told in the log it would come again and again.
                _ if sent.pid == std::process::id() => {}
                os::SIGTERM | os::SIGINT => {
                    self.remark(record);
                    self.take_stop_signal();
                }
                os::SIGHUP => {
                    let done = self.reopen();
                    self.remark(record.text("text", done));
                }
                _ => self.take_other_signal(sent.signal, record),
            }
        }
        self.go_on();
    }

    /// A signal that says nothing to the daemon is passed on to the process for which all runs, if one was named.
    fn take_other_signal(&mut self, signal: i32, record: Record) {
        let live = self.live.values().find(|live| Some(&live.path) == self.main.as_ref() && !live.is_reaped);
        match live {
            Some(live) => {
                let sent = os::signal_process(live.pid, signal);
                let text = sent.map_or_else(refused, |()| format!("passed on to {}", live.path));
                self.remark(record.text("text", text));
            }
            // A terminal sends it whenever its window changes.
            None if signal == os::SIGWINCH => {}
            None => self.remark(record.text("text", "it says nothing to the daemon")),
        }
    }

    /// The log's file is opened anew, and those that the daemon writes output to; what was done is the answer.
    fn reopen(&mut self) -> String {
        let log = match self.log.reopen() {
            Ok(true) => "the log is opened anew".to_string(),
            Ok(false) => "the log goes to no file".to_string(),
            Err(error) => format!("the log can't be opened anew, and the old one is kept: {error}"),
        };
        for live in self.live.values_mut() {
            live.reopen();
        }
        let control = match self.control.as_mut().map(Control::renew) {
            Some(Ok(true)) => "; the control socket is made anew".to_string(),
            Some(Err(error)) => format!("; the control socket is gone: {error}"),
            _ => String::new(),
        };
        format!("{log}{control}; ctl reload reads the tree and the commands anew")
    }

    /// The first signal stops. One that comes with it counts as the same: who signals a group and its leader sends two.
    fn take_stop_signal(&mut self) {
        let now = self.now();
        match self.asked {
            None => {
                self.asked = Some(now);
                self.stop();
            }
            Some(first) if now < first.saturating_add(SAME) => {}
            Some(_) => self.kill_all(),
        }
    }

    /// The root is wanted to shut down.
    pub(crate) fn stop(&mut self) {
        if let Some(manager) = self.manager.as_ref().filter(|_| !self.is_stopping) {
            manager.tell("STOPPING=1\nSTATUS=Stops all processes");
        }
        self.is_stopping = true;
        self.push(Told::Stop, Told::Stop.record(""));
        self.go_on();
    }

    /// What control clients ask for.
    pub(crate) fn take_requests(&mut self, seen: &[Waited]) {
        let now = self.now();
        let spoken = self.control.as_mut().map_or_else(Vec::new, |control| control.turn(now, seen));
        for one in spoken {
            match one {
                Spoken::Asked(token, line) => self.request(token, &line),
                Spoken::AskedHttp(token, head) => self.request_http(token, &head),
                Spoken::TurnedAway(user) => {
                    self.remark(Record::new(Class::Remark, "turned_away").number("user", u64::from(user)));
                }
            }
        }
    }

    /// The start of a process has succeeded: that is told, and what follows is done.
    pub(crate) fn is_up(&mut self, number: ProcessId) {
        self.note_up(number);
        self.note_ready(number);
        self.go_on();
    }

    /// A process for which its supervisor hasn't waited has told that it is ready.
    fn note_ready(&mut self, number: ProcessId) {
        let reading = self.now();
        let Some(live) = self.live.get_mut(&number).filter(|live| !live.is_ready) else { return };
        let Stage::Up(since) = live.stage else { return };
        live.is_ready = true;
        live.watch(reading);
        let record = Record::new(Class::Remark, "is_ready").text("path", &live.path).number("number", number.number());
        self.remark(record.number("after_ms", reading.saturating_sub(since)));
    }

    /// The start of a process has succeeded: that is to be told.
    pub(crate) fn note_up(&mut self, number: ProcessId) {
        let reading = self.now();
        let Some(live) = self.live.get_mut(&number) else {
            return;
        };
        let (Stage::Starting(since), false) = (live.stage, live.is_cut) else {
            return;
        };
        live.stage = Stage::Up(reading);
        if !live.plan.is_ready_later || live.plan.ready == Ready::Start {
            live.is_ready = true;
            live.watch(reading);
        }
        let told = Told::Note(live.process.supervisor, Note::Up(number));
        let mut record = told.record(&live.path);
        if live.plan.ready != Ready::Start && !live.plan.is_ready_later {
            record = record.number("after_ms", reading.saturating_sub(since));
        }
        self.push(told, record);
    }

    /// Reaps children that have ended, and tells the tree of those that are its own: so many at the most that children
    /// that end as fast as they are started keep nobody else waiting.
    pub(crate) fn take_ends(&mut self) {
        self.has_more_ends = false;
        for _ in 0..ENDS {
            let Some(pid) = os::ended_child() else { return };
            let number = self.numbers.get(&pid).copied();
            if let Some(number) = number {
                // Until it is reaped its number is its own, so this reaches nobody else.
                if let Some(live) = self.live.get(&number) {
                    let _ = live.kill();
                }
                self.read_output(number, true);
            }
            // One that isn't the tree's was left behind by a child.
            let Some(status) = os::reap(pid) else { return };
            if let Some(number) = number {
                self.numbers.remove(&pid);
                self.end_or_wait(number, pid, status);
            }
        }
        self.has_more_ends = true;
    }

    pub(crate) fn take_end(&mut self, number: ProcessId, pid: i32, status: ExitStatus) {
        let Some(mut live) = self.live.remove(&number) else {
            return;
        };
        self.keep_rest(&mut live);
        self.keep_last(&live, status);
        if self.main.as_ref() == Some(&live.path) {
            self.main_status = Some(status);
        }
        let reason = live.reason_of(status);
        let is_ignored = status.code().is_some() && status.code() == live.plan.ignored_status;
        let note = match live.stage {
            Stage::Up(_) => Note::Exit(number, self.end_of(&live, reason)),
            Stage::Starting(_) if live.is_cut => Note::Failed(number, stopped()),
            Stage::Starting(_) if is_ignored && live.refused.is_none() => Note::Ignored(number),
            Stage::Starting(_) => {
                let reason = if live.is_late { Reason::error("not_up_in_time") } else { reason };
                let reason = live.refused.as_ref().map_or(reason, |why| why.reason);
                self.failed(&live.process, &live.path, live.plan.retry, reason)
            }
        };
        let told = Told::Note(live.process.supervisor, note);
        let mut record = told.record(&live.path).number("pid", pid as u64).text("ended", text_of(status));
        if status.core_dumped() {
            record = record.number("core", 1);
        }
        record = record.maybe("text", live.refused.map(|why| why.text));
        self.push(told, record);
        self.go_on();
    }

    /// How a process has ended is known until its next end. A dynamic child never comes again.
    fn keep_last(&mut self, live: &Live, status: ExitStatus) {
        if live.process.id.is_none() {
            return;
        }
        let last = Last {
            at: self.reading,
            text: live.refused.as_ref().map_or_else(|| end_of(live, status), |why| why.text.clone()),
            has_begun: live.refused.is_none(),
            is_asked: live.is_asked || live.is_killed,
            is_fine: status.success(),
        };
        let tally = self.tallies.entry(live.path.clone()).or_default();
        (tally.exits, tally.last) = (tally.exits + 1, Some(last));
    }

    /// Starts whose time is over: they have succeeded, or failed.
    pub(crate) fn take_dues(&mut self) {
        let now = self.now();
        let due: Vec<ProcessId> = self
            .live
            .iter()
            .filter(|(_, live)| live.due().is_some_and(|due| due <= now))
            .map(|(number, _)| *number)
            .collect();
        for number in due {
            let Some(live) = self.live.get_mut(&number) else {
                continue;
            };
            if live.is_cut || live.is_unwatched {
                self.kill_cut(number);
                continue;
            }
            if live.is_ready {
                self.end_unwatched(number);
                continue;
            }
            if live.is_up_when_due() {
                self.is_up(number);
                continue;
            }
            // The tree is told once the process is gone, so that the next one doesn't meet it.
            live.is_late = true;
            let sent = live.kill();
            let text = sent.map_or_else(refused, |()| "not up in time: it is killed".to_string());
            let record = Record::new(Class::Remark, "late").text("path", &live.path).number("number", number.number());
            self.remark(record.text("text", text));
        }
        self.go_on();
    }
}
