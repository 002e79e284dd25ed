//! The daemon: it sleeps until something happens or is due, tells the tree, and carries out what the tree orders.

use crate::asks::{Batch, Watcher};
use crate::control::Control;
use crate::counted::Counted;
use crate::ends::Ending;
use crate::groups::Groups;
use crate::keeper::Keeper;
use crate::live::Live;
use crate::loading::Sources;
use crate::log::{Class, Log, Record};
use crate::mark::Mark;
use crate::metrics::Tally;
use crate::notify::Manager;
use crate::os::{self, READABLE, Waited};
use crate::outlet::{Outlet, Room};
use crate::output::Source;
use crate::page::Pages;
use crate::past::Past;
use crate::plan::Plans;
use crate::proc_files::Process;
use crate::reload::Reload;
use crate::reload::shape::Shape;
use crate::stand_in::Clock;
use crate::strays;
use crate::tails::Tails;
use crate::told::Told;
use otp_supervision::{CallId, Cause, End, Fault, Phase, ProcessId, Reading, Supervisor, SupervisorId, Tree};
use std::collections::{BTreeMap, BTreeSet, VecDeque};
use std::os::fd::{AsRawFd, OwnedFd};
use std::os::unix::process::ExitStatusExt;
use std::process::ExitStatus;
use std::time::{Duration, Instant};

/// After so many milliseconds the tree is told again what it had no memory for.
const AGAIN: u64 = 100;
/// The clock is read anew where a turn has lasted for so many milliseconds, as many starts make it.
const STALE: u64 = 100;
/// So many milliseconds are between two looks whether a control group is empty.
const LOOK: u64 = 2;

/// How the daemon has ended; the number is its exit status.
#[derive(Clone, Copy, Debug, PartialEq, Eq)]
pub enum Ended {
    /// The root was told to shut down, and did.
    Asked = 0,
    /// More restarts than the root's intensity allows.
    Intensity = 3,
    /// A child of the root didn't start when the tree was opened.
    InitFailed = 4,
    /// A significant child of the root has ended.
    Significant = 5,
    /// All processes were killed, since a second signal asked for it.
    Killed = 6,
    /// The library refuses what it should take: the daemon's own fault.
    Broken = 7,
}

/// The status of a process as a shell has it.
fn status_of(status: ExitStatus) -> u8 {
    let code = status.code().or(status.signal().map(|signal| 128 + signal)).unwrap_or(1);
    u8::try_from(code & 0xFF).unwrap_or(1)
}

/// What is done once a call is answered.
#[derive(Clone, Debug, PartialEq, Eq)]
pub(crate) struct Waiter {
    /// The clients that wait.
    pub tokens: Vec<u64>,
    /// The call's number; 0 where it is the end of the root that is waited for.
    pub call: CallId,
    /// The call that follows, if this one is done.
    pub then: Option<Told>,
    /// The path that was named.
    pub path: String,
    /// What is said besides, if it is done.
    pub more: &'static str,
    /// It is of the reload that is under way.
    pub is_of_reload: bool,
    /// It was to be a restart, and another client has asked for a stop since.
    pub is_overtaken: bool,
    /// The supervisor that was called.
    pub supervisor: SupervisorId,
    /// The reading at which it is told what it waits for; nothing once that was done.
    pub told_at: Option<u64>,
}

impl Waiter {
    /// A client that has named this path.
    pub fn new(token: u64, path: &str) -> Self {
        Waiter {
            tokens: vec![token],
            call: CallId::new(0),
            then: None,
            path: path.to_string(),
            more: "",
            is_of_reload: false,
            is_overtaken: false,
            supervisor: SupervisorId::ROOT,
            told_at: None,
        }
    }
}

/// Something that is to be told to the tree, with its line of the log.
#[derive(Debug)]
pub(crate) struct Untold {
    pub told: Told,
    pub record: Record,
    /// The client that waits for a call's answer, and what follows then.
    pub waiter: Option<Waiter>,
}

/// What was last seen of a nested supervisor: how often it was started, and whether it has ended since. The log tells of these.
#[derive(Clone, Copy, Debug, Default, PartialEq, Eq)]
pub(crate) struct Seen {
    pub starts: u64,
    pub has_ended: bool,
}

impl Seen {
    pub fn of(now: &Supervisor) -> Self {
        Seen { starts: now.starts, has_ended: now.phase == Phase::Ended }
    }
}

/// From which reading on the tree may give orders, if it is told nothing before: where that isn't exact, not before it.
#[derive(Clone, Copy, Debug, Default)]
struct Due {
    from: u64,
    is_exact: bool,
}

/// The paths of the supervisors of a tree, and of each those that are its children.
pub(crate) fn layout_of(tree: &Tree) -> Result<(Vec<String>, Vec<Vec<SupervisorId>>), Fault> {
    let paths = tree.supervisors().map(|number| tree.path_of(number)).collect::<Result<Vec<_>, _>>()?;
    let mut nested = vec![Vec::new(); paths.len()];
    for number in tree.supervisors().skip(1) {
        let parent = tree.supervisor(number)?.parent;
        nested[parent.index()].push(number);
    }
    Ok((paths, nested))
}

/// The daemon.
#[allow(clippy::struct_excessive_bools)] // each is a fact of its own
pub struct Daemon {
    pub(crate) tree: Counted,
    pub(crate) plans: Plans,
    /// The files of the run; the tree of them that runs, with its supervisors.
    pub(crate) sources: Option<Sources>,
    pub(crate) text: String,
    pub(crate) shapes: Vec<Shape>,
    /// The reload that is under way, and whether there was one that has changed the tree.
    pub(crate) reload: Option<Reload>,
    pub(crate) has_reloaded: bool,
    /// It goes on where an earlier program has stopped.
    pub(crate) is_resumed: bool,
    /// The paths of those that a reload couldn't start.
    pub(crate) unstarted: BTreeSet<String>,
    pub(crate) mark: Mark,
    pub(crate) log: Log,
    pub(crate) control: Option<Control>,
    pub(crate) signals: OwnedFd,
    pub(crate) clock: Clock,
    /// The reading of the clock in this turn: milliseconds since the daemon began.
    pub(crate) reading: u64,
    /// The reading that the tree was told last.
    told: u64,
    due: Due,
    /// By the tree's numbers.
    pub(crate) live: BTreeMap<ProcessId, Live>,
    /// The tree's numbers by those of the system.
    pub(crate) numbers: BTreeMap<i32, ProcessId>,
    /// The control groups of processes, if they have some.
    pub(crate) groups: Option<Groups>,
    pub(crate) endings: Vec<Ending>,
    /// What processes that have ended had written, as far as it couldn't be passed on at once.
    pub(crate) rests: Vec<(Source, Outlet)>,
    pub(crate) room: Room,
    pub(crate) tails: Tails,
    /// The manager that has started the daemon, and the reading at which it is told that the daemon lives.
    pub(crate) manager: Option<Manager>,
    alive_at: u64,
    /// The root's children have been up.
    pub(crate) is_ready: bool,
    /// The path for whose process all runs: signals are passed on to it, and its last status is the daemon's.
    pub(crate) main: Option<String>,
    pub(crate) main_status: Option<ExitStatus>,
    pub(crate) keeper: Keeper,
    pub(crate) tallies: BTreeMap<String, Tally>,
    pub(crate) watchers: Vec<Watcher>,
    pub(crate) pages: Pages,
    /// By the tokens of clients.
    pub(crate) batches: BTreeMap<u64, Batch>,
    pub(crate) untold: VecDeque<Untold>,
    /// Nothing is told before this reading, since memory was refused.
    again: Option<u64>,
    /// Clients that wait for the answer of a call, or for the end of the root.
    pub(crate) waiters: Vec<Waiter>,
    /// Children may have ended that were not reaped.
    pub(crate) has_more_ends: bool,
    /// The reading at which a signal first asked for an end.
    pub(crate) asked: Option<u64>,
    /// The root was told to shut down.
    pub(crate) is_stopping: bool,
    /// All was killed, and is waited for until this reading.
    pub(crate) kill_until: Option<u64>,
    pub(crate) paths: Vec<String>,
    pub(crate) seen: Vec<Seen>,
    pub(crate) past: Vec<Past>,
    /// Whether each was seen with its children started, since it was itself.
    pub(crate) is_opened: Vec<bool>,
    /// Of each supervisor those that are its children.
    pub(crate) nested: Vec<Vec<SupervisorId>>,
    /// Supervisors that were told something, or have ordered something, since nested ones were looked at.
    pub(crate) touched: BTreeSet<SupervisorId>,
    pub(crate) end: Option<End>,
    is_broken: bool,
}

impl Daemon {
    /// A daemon whose tree was opened. The signals come by this descriptor.
    pub fn new(
        tree: Tree,
        plans: Plans,
        mark: Mark,
        log: Log,
        control: Option<Control>,
        signals: OwnedFd,
    ) -> Result<Self, Fault> {
        let (paths, nested) = layout_of(&tree)?;
        Ok(Daemon {
            tree: tree.into(),
            plans,
            sources: None,
            text: String::new(),
            shapes: Vec::new(),
            reload: None,
            has_reloaded: false,
            is_resumed: false,
            unstarted: BTreeSet::new(),
            mark,
            log,
            control,
            signals,
            clock: Clock::System(Instant::now()),
            reading: 0,
            told: 0,
            due: Due::default(),
            live: BTreeMap::new(),
            numbers: BTreeMap::new(),
            groups: None,
            endings: Vec::new(),
            rests: Vec::new(),
            room: Room::default(),
            tails: Tails::default(),
            manager: None,
            alive_at: 0,
            is_ready: false,
            main: None,
            main_status: None,
            keeper: Keeper::default(),
            tallies: BTreeMap::new(),
            watchers: Vec::new(),
            pages: Pages::default(),
            batches: BTreeMap::new(),
            untold: VecDeque::new(),
            again: None,
            waiters: Vec::new(),
            has_more_ends: false,
            asked: None,
            is_stopping: false,
            kill_until: None,
            seen: vec![Seen::default(); paths.len()],
            past: vec![Past::default(); paths.len()],
            is_opened: vec![false; paths.len()],
            paths,
            nested,
            // It is opened already, maybe with supervisors that start no process.
            touched: BTreeSet::from([SupervisorId::ROOT]),
            end: None,
            is_broken: false,
        })
    }

    /// A tree that was opened at this reading is the one that runs.
    pub(crate) fn lay_out(&mut self, tree: Tree) -> Result<(), Fault> {
        (self.paths, self.nested) = layout_of(&tree)?;
        self.tree = tree.into();
        self.told = self.reading;
        self.seen = vec![Seen::default(); self.paths.len()];
        self.past = vec![Past::default(); self.paths.len()];
        self.is_opened = vec![false; self.paths.len()];
        self.tells_all();
        Ok(())
    }

    /// Each supervisor was told something.
    pub(crate) fn tells_all(&mut self) {
        self.due = Due::default();
        self.touched = self.tree.supervisors().collect();
    }

    /// Runs the tree until its root has ended, and answers the exit status: that of the main process, or how the root has ended.
    pub fn run(mut self) -> u8 {
        if !self.is_resumed {
            let swept = self.mark.end_left_behind(|| self.grouped());
            self.tell_swept(&swept, "a daemon that was killed has left them");
        }
        if let Some(groups) = &self.groups {
            groups.clear();
        }
        self.go_on();
        self.keep();
        while self.end.is_none() && !self.is_broken && !self.gives_up() {
            self.tell_followers();
            self.log.flush();
            let mut waited = vec![Waited::new(self.signals.as_raw_fd(), READABLE)];
            let clients = self.control.as_ref().map_or_else(Vec::new, |control| control.waited(self.now()));
            let after_clients = 1 + clients.len();
            waited.extend(clients);
            let mut tells: Vec<ProcessId> = Vec::new();
            for (number, live) in &self.live {
                for one in live.waited() {
                    waited.push(one);
                    tells.push(*number);
                }
            }
            waited.extend(self.rests.iter().filter_map(|(_, outlet)| outlet.waited()));
            if let Err(error) = os::wait(&mut waited, self.time_left()) {
                // The system has no memory for it just now: the processes go on, and so does the daemon in a while.
                let text = format!("nothing can be waited for: {error}");
                self.remark(Record::new(Class::Remark, "again").number("after_ms", AGAIN).text("text", text));
                std::thread::sleep(Duration::from_millis(AGAIN));
            }
            let telling = tells.iter().zip(&waited[after_clients..]).filter(|(_, seen)| seen.is_seen());
            let telling: Vec<ProcessId> = telling.map(|(number, _)| *number).collect();
            self.turn(&waited[1..after_clients], &telling);
        }
        self.finish()
    }

    /// Does what is due, and takes what has happened, at one reading of the clock: what clients say, and what these processes do.
    pub(crate) fn turn(&mut self, clients: &[Waited], telling: &[ProcessId]) {
        self.read_clock(self.now());
        self.go_on();
        self.take_signals();
        self.take_requests(clients);
        self.write_rests();
        for number in telling {
            self.read_output(*number, false);
        }
        self.take_endings();
        self.take_ends();
        self.take_dues();
        self.reload_on();
        self.keep();
        self.tell_waiters();
        if !self.watchers.is_empty() {
            self.tell_watchers();
        }
        self.tell_lookers();
        self.tell_alive();
    }

    /// The manager that has started the daemon is told that it lives.
    fn tell_alive(&mut self) {
        let now = self.now();
        if let Some((manager, every)) = self.manager.as_ref().and_then(|manager| Some((manager, manager.every()?)))
            && now >= self.alive_at
        {
            manager.tell("WATCHDOG=1");
            self.alive_at = now.saturating_add(every);
        }
    }

    /// The processes in the control groups of the tree.
    fn grouped(&self) -> Vec<Process> {
        self.groups.as_ref().map_or_else(Vec::new, Groups::processes)
    }

    pub(crate) fn now(&self) -> u64 {
        u64::try_from(self.clock.elapsed().as_millis()).unwrap_or(u64::MAX)
    }

    /// What is told from now on is of this reading. What was restarted before was so at the one before.
    fn read_clock(&mut self, now: u64) {
        if !self.touched.is_empty() {
            self.look_at_supervisors();
        }
        self.reading = self.reading.max(now);
    }

    /// The tree is told the time, if that has gone on.
    pub(crate) fn tell_time(&mut self) {
        if self.told < self.reading {
            match self.tree.tick(Reading::from_millis(self.reading)) {
                Ok(()) => self.told = self.reading,
                Err(fault) => self.fail(fault),
            }
        }
    }

    /// The reading at which the tree may have something to order. It is asked only where it was told something since.
    fn tree_due(&mut self) -> Option<u64> {
        if !self.due.is_exact {
            let from = self.tree.next_deadline().map_or(u64::MAX, Reading::as_millis);
            self.due = Due { from, is_exact: true };
        }
        (self.due.from < u64::MAX).then_some(self.due.from)
    }

    /// How long may be slept: until the first deadline of the tree, of a start or of a client.
    pub(crate) fn time_left(&mut self) -> Option<Duration> {
        if self.has_more_ends {
            return Some(Duration::ZERO);
        }
        let now = self.now();
        let starts = self.live.values().filter_map(Live::due).min();
        let clients = self.control.as_ref().and_then(|control| control.next_due(now));
        // A tree that had no memory would be asked in vain before that.
        let tree = if self.again.is_some() { self.again } else { self.tree_due() };
        let waiters = self.waiters.iter().filter_map(|waiter| waiter.told_at).min();
        let endings = (!self.endings.is_empty()).then_some(now.saturating_add(LOOK));
        let alive = self.manager.as_ref().and_then(Manager::every).map(|_| self.alive_at);
        let due = [
            starts,
            clients,
            tree,
            waiters,
            endings,
            alive,
            self.keeper.next_due(),
            self.kill_until,
            self.reload_due(),
        ]
        .into_iter()
        .flatten()
        .min()?;
        Some(Duration::from_millis(due).saturating_sub(self.clock.elapsed()))
    }

    pub(crate) fn remark(&mut self, record: Record) {
        self.log.tell(self.reading, &record);
    }

    /// The library refuses what its header says it takes. All processes are killed, and the daemon ends.
    fn fail(&mut self, fault: Fault) {
        self.remark(Record::new(Class::Remark, "broken").text("text", fault.to_string()));
        self.is_broken = true;
    }

    /// Puts something into the row of what the tree is told.
    pub(crate) fn push(&mut self, told: Told, record: Record) {
        self.untold.push_back(Untold { told, record, waiter: None });
    }

    /// Tells the tree what is untold, and carries out all orders, until nothing is left. The tree isn't called where there is
    /// nothing to tell, and nothing due.
    pub(crate) fn go_on(&mut self) {
        if self.again.is_some_and(|again| self.now() < again) {
            return;
        }
        self.again = None;
        loop {
            let now = self.now();
            if now >= self.reading.saturating_add(STALE) {
                self.read_clock(now);
            }
            // What is due by now comes before what is told now: so a log can be played again from its lines alone.
            if (self.due.from <= self.reading && !self.take_orders()) || self.end.is_some() {
                return;
            }
            let Some(untold) = self.untold.pop_front() else { break };
            self.touched.insert(untold.told.supervisor());
            self.due = Due::default();
            match untold.told.tell(&mut self.tree, Reading::from_millis(self.reading)) {
                Ok(call) => {
                    self.told = self.reading;
                    self.log.tell(self.reading, &untold.record);
                    if let Some(call) = call {
                        self.keeper.has_called(&untold.told, call);
                    }
                    if let (Some(call), Some(waiter)) = (call, untold.waiter) {
                        self.waiters.push(Waiter { call, ..waiter });
                    }
                }
                Err(fault) if Daemon::comes_again(fault) || untold.waiter.is_none() => {
                    self.untold.push_front(untold);
                    self.wait_for_memory(fault);
                    return;
                }
                Err(fault) if untold.waiter.as_ref().is_some_and(|waiter| waiter.is_of_reload) => {
                    self.reload_answered(Err(&fault.to_string()));
                }
                // What a client asks for ends nothing but its own request.
                Err(fault) => {
                    let tokens = untold.waiter.map_or_else(Vec::new, |waiter| waiter.tokens);
                    self.answer_all(&tokens, Err(&fault.to_string()));
                }
            }
        }
        if !self.touched.is_empty() {
            self.cut_starts();
            self.look_at_supervisors();
        }
    }

    /// Whether all orders were taken.
    fn take_orders(&mut self) -> bool {
        self.tell_time();
        loop {
            match self.tree.next_order() {
                Ok(Some(order)) => self.carry_out(order),
                Ok(None) => {
                    self.due = Due { from: self.reading.saturating_add(1), is_exact: false };
                    return true;
                }
                Err(fault) => {
                    self.wait_for_memory(fault);
                    return false;
                }
            }
        }
    }

    /// Whether the same may be told again later.
    fn comes_again(fault: Fault) -> bool {
        matches!(fault, Fault::Memory | Fault::Full)
    }

    fn wait_for_memory(&mut self, fault: Fault) {
        if Daemon::comes_again(fault) {
            self.remark(Record::new(Class::Remark, "again").number("after_ms", AGAIN).text("text", fault.to_string()));
            self.again = Some(self.now() + AGAIN);
        } else {
            self.fail(fault);
        }
    }

    pub(crate) fn tell_followers(&mut self) {
        self.log.is_followed = self.control.as_ref().is_some_and(Control::is_followed);
        let lines = self.log.take_fresh();
        let events = self.log.take_new_events(self.control.as_ref().is_some_and(Control::has_event_followers));
        if let Some(control) = &mut self.control {
            control.tell(self.reading, &lines);
            control.tell_events(self.reading, &events);
        }
    }

    /// Nothing is left running: neither a process of the tree nor what one has left behind.
    fn finish(mut self) -> u8 {
        for live in self.live.values() {
            let _ = live.kill();
        }
        let swept = strays::end_children(self.kill_until.is_some(), || self.grouped());
        if let Some(groups) = &self.groups {
            groups.remove();
        }
        self.tell_swept(&swept, "they had left the group of their child");
        let ended = match self.end {
            _ if self.is_broken => Ended::Broken,
            None => Ended::Killed,
            Some(_) if self.kill_until.is_some() => Ended::Killed,
            Some(end) => match end.cause {
                Cause::Asked => Ended::Asked,
                Cause::Intensity => Ended::Intensity,
                // A stop doesn't wait for the starts of a tree that isn't up yet: these fail then.
                Cause::InitFailed(_) if self.is_stopping => Ended::Asked,
                Cause::InitFailed(_) => Ended::InitFailed,
                Cause::Significant(_) => Ended::Significant,
                // The library has no other cause.
                _ => Ended::Broken,
            },
        };
        self.give_up_rests();
        self.tell_followers();
        self.log.flush();
        self.end_watchers();
        self.end_lookers();
        self.end_reload();
        let now = self.now();
        let tokens: BTreeSet<u64> = self.waiters.iter().flat_map(|waiter| waiter.tokens.iter().copied()).collect();
        if let Some(mut control) = self.control.take() {
            for token in tokens {
                control.answer(now, token, Ok("the tree has ended").into());
            }
            control.close(now);
        }
        match self.main_status {
            Some(status) if ended != Ended::Broken => status_of(status),
            _ => ended as u8,
        }
    }
}
