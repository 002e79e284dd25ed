//! Carries out what the tree orders.

use crate::daemon::{Daemon, Seen};
use crate::ends::{refused, stopped};
use crate::live::Live;
use crate::log::{Class, Record};
use crate::metrics::Last;
use crate::spawn::{Common, NotStarted, spawn};
use crate::told::Told;
use otp_supervision::{Note, Order, Phase, Process, Reading, Reason, Supervisor, SupervisorId};
use std::collections::BTreeSet;

impl Daemon {
    /// Carries out an order, and tells it to the log.
    pub(crate) fn carry_out(&mut self, order: Order) {
        match order {
            Order::Start(process) => self.start(process),
            Order::Ask { process, deadline } => self.ask(process, deadline.map(Reading::as_millis)),
            Order::Kill(process) => self.kill(process),
            Order::Reply(reply) => self.reply(reply),
            Order::Ready => self.ready(),
            Order::End(end) => {
                let record = Record::new(Class::Order, "end").text("reason", end.reason.to_string());
                self.remark(record.text("cause", end.cause.to_string()));
                self.end = Some(end);
            }
            // The library has no other order, and the tree isn't watched.
            _ => {}
        }
    }

    fn ready(&mut self) {
        self.is_ready = true;
        self.remark(Record::new(Class::Order, "ready"));
        if let Some(manager) = &self.manager {
            let count = self.live.len();
            manager.tell(&format!("READY=1\nSTATUS={count} processes are up"));
        }
    }

    /// The path of a child: a dynamic one has its number in the place of an id.
    fn path_of(&self, process: &Process) -> String {
        let above = self.paths.get(process.supervisor.index()).map_or("", String::as_str);
        match process.id {
            Some(id) => format!("{above}{id}"),
            None => format!("{above}#{}", process.number),
        }
    }

    /// The line of an order for a process.
    pub(crate) fn order(&mut self, what: &'static str, process: &Process, path: &str) -> Record {
        self.touched.insert(process.supervisor);
        let record = Record::new(Class::Order, what).text("path", path);
        record.number("number", process.number.number()).number("supervisor", u64::from(process.supervisor.number()))
    }

    /// An order on a process that was started, whose path was made then.
    fn order_on(&mut self, what: &'static str, process: &Process) -> Record {
        let path = self.live.get(&process.number).map(|live| live.path.clone());
        let path = path.unwrap_or_else(|| self.path_of(process));
        self.order(what, process, &path)
    }

    pub(crate) fn start(&mut self, process: Process) {
        let path = self.path_of(&process);
        if self.clock.is_told() {
            let record = self.order("start", &process, &path);
            return self.remark(record);
        }
        let lacking = self.has_to_wait(&process, &path);
        if let Some(other) = lacking {
            let record = self.order("start", &process, &path);
            self.remark(record);
            let told = Told::Note(process.supervisor, Note::Ignored(process.number));
            let record = told.record(&path).text("text", format!("it waits for {other}"));
            return self.push(told, record);
        }
        let since = self.now();
        let is_vain = self.is_stopping && self.is_in_the_way(process.supervisor);
        let spawned = match self.plans.get(process.start.as_str()).cloned() {
            _ if self.kill_until.is_some() => {
                let text = "all processes are being killed".to_string();
                Err(NotStarted { reason: Reason::error("killing"), text })
            }
            _ if is_vain => Err(NotStarted { reason: stopped(), text: "its supervisor is to stop".to_string() }),
            None => {
                let text = format!("no table [{}] in the file of commands", process.start);
                Err(NotStarted { reason: Reason::error("no_command"), text })
            }
            Some(plan) => {
                let common = Common { mark: self.mark.value(), groups: self.groups.as_ref() };
                spawn(&plan, &path, process.number.number(), common).map(|spawned| (spawned, plan))
            }
        };
        let record = self.order("start", &process, &path);
        if process.id.is_some() {
            self.tallies.entry(path.clone()).or_default().starts += 1;
        }
        match spawned {
            Ok((spawned, plan)) => {
                let pid = spawned.pid;
                self.numbers.insert(pid, process.number);
                let is_up = plan.is_up_at_once() && spawned.beginning.is_none();
                let live = Live::new(process, path, plan, spawned, since);
                self.live.insert(process.number, live);
                self.remark(record.number("pid", pid as u64));
                if is_up {
                    self.note_up(process.number);
                }
            }
            Err(refused) => {
                self.remark(record);
                if let Some(tally) = self.tallies.get_mut(&path) {
                    let text = refused.text.clone();
                    tally.last = Some(Last { at: since, text, has_begun: false, is_asked: false, is_fine: false });
                }
                let retry = self.plans.get(process.start.as_str()).and_then(|plan| plan.retry);
                let note = self.failed(&process, &path, retry, refused.reason);
                let told = Told::Note(process.supervisor, note);
                let record = told.record(&path).text("text", refused.text);
                self.push(told, record);
            }
        }
    }

    fn ask(&mut self, process: Process, deadline: Option<u64>) {
        let mut record = self.order_on("ask", &process);
        if let Some(live) = self.live.get_mut(&process.number) {
            live.is_asked = true;
            let sent = live.ask();
            record = record.text("signal", live.plan.signal.0).maybe("text", sent.err().map(refused));
        }
        if let Some(deadline) = deadline {
            record = record.number("within_ms", deadline.saturating_sub(self.reading));
        }
        self.remark(record);
    }

    fn kill(&mut self, process: Process) {
        let mut record = self.order_on("kill", &process);
        if let Some(live) = self.live.get_mut(&process.number) {
            live.is_killed = true;
            let sent = live.kill();
            record = record.text("signal", "KILL").maybe("text", sent.err().map(refused));
        }
        self.remark(record);
    }

    /// How a nested supervisor is seen now, if it was started or has ended since it was last looked at.
    fn seen_anew(&mut self, number: SupervisorId) -> Option<(Seen, Supervisor)> {
        let now = self.tree.supervisor(number).ok()?;
        let seen = Seen::of(&now);
        (seen != self.seen[number.index()]).then_some((seen, now))
    }

    /// Tells the log of nested supervisors that were started or have ended, of which no order tells. Whatever a supervisor does to
    /// others it does to its children, unless it ends, or lets its parent go on. So all are looked at only where one that is near to
    /// what was touched has changed.
    pub(crate) fn look_at_supervisors(&mut self) {
        let touched = std::mem::take(&mut self.touched);
        let mut near = BTreeSet::new();
        for number in &touched {
            self.add_near(*number, &mut near);
        }
        let is_anew = near.iter().any(|number| !number.is_root() && self.seen_anew(*number).is_some());
        if is_anew {
            self.look_at_restarts(self.tree.supervisors());
            self.tree.supervisors().skip(1).for_each(|number| self.tell_supervisor(number));
        } else {
            // Who restarts a process is told of its end.
            self.look_at_restarts(touched);
        }
    }

    /// Adds a supervisor and its children. Once its own are started its parent goes on with the next one: so the parent is added too,
    /// unless that was seen before.
    fn add_near(&mut self, number: SupervisorId, near: &mut BTreeSet<SupervisorId>) {
        let mut at = number;
        loop {
            near.insert(at);
            near.extend(&self.nested[at.index()]);
            let Ok(now) = self.tree.supervisor(at) else { return };
            if at.is_root() || self.is_opened[at.index()] {
                return;
            }
            self.is_opened[at.index()] = now.phase == Phase::Runs && !now.has_open_work;
            at = now.parent;
        }
    }

    fn tell_supervisor(&mut self, number: SupervisorId) {
        let Some((seen, _)) = self.seen_anew(number) else { return };
        let Ok(now) = self.supervisor(number) else { return };
        self.is_opened[number.index()] = false;
        let before = std::mem::replace(&mut self.seen[number.index()], seen);
        let what = match (seen.starts > before.starts, before.starts) {
            (true, 0) => "opened",
            (true, _) => "anew",
            (false, _) => "closed",
        };
        let mut line = Record::new(Class::Remark, what).text("path", self.paths[number.index()].as_str());
        if let Some(process) = now.process {
            line = line.number("number", process.number());
        }
        self.remark(line.number("starts", now.starts).maybe("cause", now.cause.map(otp_supervision::EndCause::as_str)));
    }
}
