//! `ctl reload`: the files are read anew, and the tree goes on as they are now, while the processes of children that stay run on.
//!
//! All is read and tested first. Then what is to go is stopped by calls on the tree that runs, last started first. Once nothing is
//! under way the tree goes on under the new files, within one turn (`reload/exchange.rs`). At last it is called for what is to be
//! started, in start order.

pub mod exchange;
pub mod shape;
pub mod steps;

use crate::daemon::{Daemon, Untold, Waiter};
use crate::loading::{Loaded, Sources};
use crate::log::{Class, Record};
use crate::os;
use crate::reload::shape::{child_at, split_path};
use crate::reload::steps::{Side, Standing, Steps, Target, steps_between};
use crate::status;
use crate::told::{CallKind, Told};
use otp_supervision::{Answer, Child, ChildState, Name, Phase, Refusal, SupervisorId};
use std::collections::{BTreeMap, VecDeque};
use std::time::Duration;

/// So long a reload waits until nothing is under way, where nobody says.
pub const PATIENCE: Duration = Duration::from_secs(30);
/// A client that has waited for so many milliseconds is told for what.
const LONG: u64 = 1_000;

/// What a client wants of a reload.
#[derive(Clone, Debug, PartialEq, Eq)]
pub struct Wish {
    /// It is only told what would be done.
    pub is_dry: bool,
    /// What would run otherwise is restarted.
    pub restarts: bool,
    /// So long it waits until nothing is under way.
    pub within: Duration,
    /// Other files than those of the run: these are only compared.
    pub sources: Option<Sources>,
}

/// What is done once nothing is under way.
#[derive(Debug)]
enum Goal {
    /// These files take the place of those that run; where true, what would run otherwise is restarted.
    Files(Box<Loaded>, bool),
    /// The program is replaced.
    Program,
}

/// A reload that is under way, or the replacement of the program.
#[derive(Debug)]
pub(crate) struct Reload {
    token: u64,
    goal: Goal,
    steps: Steps,
    /// They are those of children that neither start nor stop.
    is_settled: bool,
    within: u64,
    /// It is given up at this reading, if something is under way still.
    until: u64,
    /// The reading at which the client is told what it waits for; nothing once that was done.
    told_at: Option<u64>,
    /// A call of it isn't answered: which child it is of.
    awaits: Option<String>,
    /// The new files are those that run; what is left is to be started.
    is_exchanged: bool,
    /// What is left to be started: calls with their paths.
    calls: VecDeque<(SupervisorId, CallKind, String)>,
    /// How many processes of a `simple_one_for_one` were stopped, by its path.
    stopped: BTreeMap<String, usize>,
    /// What has a process no longer, and what isn't started.
    gone: Vec<String>,
    failed: Vec<String>,
}

impl Daemon {
    /// A client asks for a reload.
    pub(crate) fn reload(&mut self, token: u64, wish: &Wish) {
        let found = self.reload_steps(wish).map_err(|text| format!("nothing is changed: {text}"));
        let (loaded, steps) = match found {
            Ok(found) => found,
            Err(text) => return self.answer(token, Err(&text)),
        };
        if wish.is_dry || (steps.is_empty() && !self.has_other_plans(&loaded)) {
            return self.answer(token, Ok(&steps.text()));
        }
        if let Some(manager) = &self.manager {
            let now = os::monotonic_microseconds();
            manager.tell(&format!("RELOADING=1\nMONOTONIC_USEC={now}\nSTATUS=Reads its files anew"));
        }
        let goal = Goal::Files(Box::new(loaded), wish.restarts);
        self.reload = Some(Reload::new(token, goal, steps, wish.within.as_millis() as u64, self.now()));
        self.reload_on();
    }

    /// A client asks for the program to be replaced.
    pub(crate) fn reexec(&mut self, token: u64, within: u64) {
        if let Err(text) = self.may_reload() {
            return self.answer(token, Err(&format!("nothing is changed: {text}")));
        }
        self.reload = Some(Reload::new(token, Goal::Program, Steps::default(), within, self.now()));
        self.reload_on();
    }

    /// Whether the files say of what is run something else than those of now, also where each process runs so already.
    fn has_other_plans(&self, loaded: &Loaded) -> bool {
        let (now, new) = (&self.plans, &loaded.files.plans);
        let is_same = |word: &String| now.get(word).zip(new.get(word)).is_some_and(|(now, new)| now.said == new.said);
        now.len() != new.len() || !now.keys().all(is_same)
    }

    fn may_reload(&self) -> Result<(), String> {
        match (self.is_stopping, &self.reload) {
            (true, _) => Err("the tree is shutting down".to_string()),
            (false, Some(_)) => Err("another reload is under way".to_string()),
            (false, None) => Ok(()),
        }
    }

    /// The files as they are now, and what is to be done. Nothing of the daemon is changed.
    fn reload_steps(&mut self, wish: &Wish) -> Result<(Loaded, Steps), String> {
        let sources = wish.sources.as_ref().or(self.sources.as_ref()).ok_or("the daemon has no files")?;
        self.may_reload()?;
        let loaded = Loaded::read(&sources.tree, sources.commands.as_deref()).map_err(|error| error.to_string())?;
        if let Some(text) = loaded.refusal_of_files(self.main.as_deref()) {
            return Err(text);
        }
        if let Some(bad) = loaded.refusal_by(self.groups.as_ref()) {
            return Err(bad.to_string());
        }
        let standing = self.standing();
        let old = Side { shapes: &self.shapes, plans: &self.plans };
        let steps = steps_between(old, loaded.side(), &standing, wish.restarts)
            .map_err(|text| format!("{}: {text}", sources.tree.display()))?;
        match loaded.missing(&steps) {
            Some(bad) => Err(bad.to_string()),
            None => Ok((loaded, steps)),
        }
    }

    /// How the children stand now.
    fn standing(&self) -> Standing {
        let mut standing = Standing { unstarted: self.unstarted.clone(), ..Standing::default() };
        for number in self.tree.supervisors() {
            let (above, children) = (&self.paths[number.index()], self.children_of(number));
            let count = children.iter().filter(|child| child.id.is_none() && child.number.is_some()).count();
            if count > 0 {
                standing.dynamic.insert(above.clone(), count);
            }
            for child in &children {
                let Some(id) = child.id else { continue };
                let path = format!("{above}{id}");
                if self.keeper.of(number, id).is_some_and(|kept| kept.due.is_some() || kept.is_held) {
                    standing.failing.insert(path.clone());
                }
                if child.number.is_some() {
                    standing.running.insert(path);
                }
            }
        }
        for live in self.live.values().filter(|live| self.is_changed(live)) {
            let above = self.paths.get(live.process.supervisor.index()).map_or("", String::as_str);
            let path = live.process.id.map_or(above, |_| &live.path);
            standing.older.insert(path.to_string(), live.plan.clone());
        }
        standing.unstarted.retain(|path| !standing.running.contains(path));
        standing
    }

    /// The children of a supervisor that runs.
    pub(crate) fn children_of(&self, supervisor: SupervisorId) -> Vec<Child> {
        let runs = self.tree.supervisor(supervisor).is_ok_and(|found| found.phase == Phase::Runs);
        if runs { self.tree.children(supervisor).unwrap_or_default() } else { Vec::new() }
    }

    /// The reading at which a reload that waits is given up.
    pub(crate) fn reload_due(&self) -> Option<u64> {
        let reload = self.reload.as_ref().filter(|reload| !reload.is_exchanged && reload.awaits.is_none())?;
        Some(reload.told_at.map_or(reload.until, |at| at.min(reload.until)))
    }

    /// What a reload waits for is told to its client once, after a while.
    fn tell_what_reload_awaits(&mut self) {
        let now = self.now();
        let Some(reload) = self.reload.as_mut().filter(|reload| reload.told_at.is_some_and(|at| at <= now)) else {
            return;
        };
        reload.told_at = None;
        let token = reload.token;
        let busy = self.tree.supervisors().find(|number| !self.is_calm(*number));
        let what = busy.map_or("the daemon is busy".to_string(), |number| status::work_of(self, number));
        if let Some(control) = &mut self.control {
            control.say_why(now, token, &format!("it waits: {what}"));
        }
    }

    /// Whether the daemon makes no calls of its own meanwhile.
    pub(crate) fn reload_holds(&self) -> bool {
        self.reload.as_ref().is_some_and(|reload| !reload.is_exchanged)
    }

    /// Goes on with a reload as far as nothing is waited for.
    pub(crate) fn reload_on(&mut self) {
        while self.reload.as_ref().is_some_and(|reload| reload.awaits.is_none()) && self.end.is_none() {
            if self.is_stopping || self.kill_until.is_some() {
                return self.reload_ends(Some("the tree is shutting down"));
            }
            if self.reload_holds() {
                if !self.is_quiet() {
                    self.tell_what_reload_awaits();
                    if self.reload.as_ref().is_some_and(|reload| reload.until <= self.now()) {
                        self.reload_ends(Some("children are starting or stopping all the time; --within waits longer"));
                    }
                    return;
                }
                if let Err(text) = self.settle_steps() {
                    return self.reload_ends(Some(&text));
                }
                if let Some((supervisor, kind, path)) = self.next_stop() {
                    self.reload_call(supervisor, kind, path);
                } else if let Err(text) = self.exchange() {
                    return self.reload_ends(Some(&text));
                }
            } else {
                match self.reload.as_mut().and_then(|reload| reload.calls.pop_front()) {
                    Some((supervisor, kind, path)) => self.reload_call(supervisor, kind, path),
                    None => return self.reload_ends(None),
                }
            }
        }
    }

    /// What is to be done is found anew once, when nothing is under way: a supervisor that was being started has its children by then.
    fn settle_steps(&mut self) -> Result<(), String> {
        let Some(reload) = self.reload.as_ref().filter(|reload| !reload.is_settled) else { return Ok(()) };
        let steps = match &reload.goal {
            Goal::Program => None,
            Goal::Files(loaded, restarts) => {
                let old = Side { shapes: &self.shapes, plans: &self.plans };
                Some(steps_between(old, loaded.side(), &self.standing(), *restarts)?)
            }
        };
        if let Some(reload) = &mut self.reload {
            reload.is_settled = true;
            reload.steps = steps.unwrap_or_default();
        }
        Ok(())
    }

    /// Nothing is under way: each child is up, or has no process, and nobody waits for the answer of a call.
    fn is_quiet(&self) -> bool {
        let is_of_program = self.reload.as_ref().is_some_and(|reload| matches!(reload.goal, Goal::Program));
        if is_of_program && !self.can_be_handed_over() {
            return false;
        }
        let is_told = self.untold.is_empty() && self.waiters.is_empty() && self.endings.is_empty();
        is_told
            && self.live.values().all(|live| !live.is_reaped)
            && self.tree.supervisors().all(|number| self.is_calm(number))
    }

    /// A supervisor that runs neither starts nor stops a child.
    fn is_calm(&self, number: SupervisorId) -> bool {
        let Ok(found) = self.tree.supervisor(number) else { return false };
        let rests = |child: &Child| matches!(child.state, ChildState::Up | ChildState::Undefined);
        // One that was stopped keeps the mark of that.
        let is_at_work = found.has_open_work || found.is_stopping;
        found.phase != Phase::Runs || (!is_at_work && self.children_of(number).iter().all(rests))
    }

    /// The last of those that are to be stopped and have a process still. A supervisor that has begun anew meanwhile has all again.
    fn next_stop(&mut self) -> Option<(SupervisorId, CallKind, String)> {
        let stops = &self.reload.as_ref()?.steps.stops;
        let found = stops.iter().rev().find_map(|target| match target {
            Target::Child(path) => {
                let (supervisor, id) = self.child_of(path)?;
                let child = self.children_of(supervisor).into_iter().find(|child| child.id == Some(id))?;
                child.number.map(|_| (supervisor, CallKind::Terminate(id), path.clone()))
            }
            Target::Processes(path) => {
                let number = self.paths.iter().position(|known| known == path)?;
                let supervisor = SupervisorId::new(number as u32);
                let process = self.children_of(supervisor).iter().rev().find_map(|child| child.number)?;
                Some((supervisor, CallKind::TerminateProcess(process), path.clone()))
            }
        })?;
        if let (CallKind::TerminateProcess(_), Some(reload)) = (found.1, &mut self.reload) {
            *reload.stopped.entry(found.2.clone()).or_default() += 1;
        }
        Some(found)
    }

    /// A child by its path: its supervisor, and its id.
    pub(crate) fn child_of(&self, path: &str) -> Option<(SupervisorId, Name)> {
        let (above, id) = split_path(path);
        let number = self.paths.iter().position(|known| known == above)?;
        Some((SupervisorId::new(number as u32), Name::new(id).ok()?))
    }

    fn reload_call(&mut self, supervisor: SupervisorId, kind: CallKind, path: String) {
        let Some(reload) = &mut self.reload else { return };
        reload.awaits = Some(path.clone());
        let told = Told::Call(supervisor, kind);
        let record = told.record(&path).text("by", "reload");
        let told_at = Some(self.reading.saturating_add(LONG));
        let waiter = Waiter { supervisor, told_at, is_of_reload: true, ..Waiter::new(reload.token, &path) };
        self.untold.push_back(Untold { told, record, waiter: Some(waiter) });
        self.go_on();
    }

    /// A call of the reload is answered, or couldn't be made.
    pub(crate) fn reload_answered(&mut self, answer: Result<&Answer, &str>) {
        let now = self.now();
        let Some(reload) = &mut self.reload else { return };
        let path = reload.awaits.take().unwrap_or_default();
        reload.until = now.saturating_add(reload.within);
        let refused = match answer {
            // Somebody else has started it meanwhile, or what is to be stopped is gone.
            Ok(Answer::Refused(Refusal::Running | Refusal::Restarting)) => None,
            Ok(Answer::Refused(Refusal::NotFound)) if !reload.is_exchanged => None,
            Ok(Answer::Refused(refusal)) => Some(refusal.to_string()),
            Ok(_) => None,
            Err(text) => Some(text.to_string()),
        };
        match refused {
            None if !reload.is_exchanged => reload.gone.push(path),
            Some(text) if !reload.is_exchanged => self.reload_ends(Some(&format!("{path}: {text}"))),
            None => drop(self.unstarted.remove(&path)),
            Some(text) => {
                reload.failed.push(format!("failed  {path}: {text}"));
                self.unstarted.insert(path);
            }
        }
    }

    /// The new files take the place of those that run. Nothing is changed where that is refused.
    fn exchange(&mut self) -> Result<(), String> {
        let Some(reload) = &self.reload else { return Ok(()) };
        if matches!(reload.goal, Goal::Program) {
            return Err(self.replace_program(reload.token));
        }
        let Some(mut reload) = self.reload.take() else { return Ok(()) };
        let Goal::Files(loaded, _) = &mut reload.goal else { return Ok(()) };
        if reload.steps.is_new_tree
            && let Err(text) = self.change_tree(loaded, &reload.steps)
        {
            self.reload = Some(reload);
            return Err(text);
        }
        self.plans = std::mem::take(&mut loaded.files.plans);
        self.keeper.after = std::mem::take(&mut loaded.needs.after);
        (self.text, self.shapes) = (std::mem::take(&mut loaded.files.tree), std::mem::take(&mut loaded.shapes));
        self.take_at_once();
        reload.calls = self.calls_of(&reload);
        for (supervisor, kind, _) in &reload.calls {
            if let CallKind::Restart(id) = kind {
                self.keeper.release(*supervisor, *id);
            }
        }
        reload.is_exchanged = true;
        self.reload = Some(reload);
        let shapes = &self.shapes;
        self.unstarted.retain(|path| child_at(shapes, path).is_some());
        self.go_on();
        self.clear_groups();
        Ok(())
    }

    /// What counts at once of the new plans, for processes that run.
    fn take_at_once(&mut self) {
        for live in self.live.values_mut() {
            let Some(plan) = self.plans.get(live.process.start.as_str()) else { continue };
            live.plan = if live.plan.runs_otherwise(plan) { live.plan.at_once(plan).into() } else { plan.clone() };
        }
    }

    /// The calls by which is started what is to be.
    fn calls_of(&self, reload: &Reload) -> VecDeque<(SupervisorId, CallKind, String)> {
        let mut calls = VecDeque::new();
        for target in &reload.steps.starts {
            match target {
                Target::Child(path) => {
                    calls.extend(self.child_of(path).map(|(above, id)| (above, CallKind::Restart(id), path.clone())));
                }
                Target::Processes(path) => {
                    let Some(number) = self.paths.iter().position(|known| known == path) else { continue };
                    let call = (SupervisorId::new(number as u32), CallKind::StartDynamic, path.clone());
                    calls.extend(std::iter::repeat_n(call, reload.stopped.get(path).copied().unwrap_or(0)));
                }
            }
        }
        calls
    }

    /// The reload has ended, or is given up for this.
    fn reload_ends(&mut self, refused: Option<&str>) {
        let Some(reload) = self.reload.take() else { return };
        let record = Record::new(Class::Remark, "reloaded").number("failed", reload.failed.len() as u64);
        self.remark(record.maybe("text", refused));
        if let Some(manager) = self.manager.as_ref().filter(|_| !self.is_stopping) {
            manager.tell(&format!("READY=1\nSTATUS={} processes are up", self.live.len()));
        }
        let failed: String = reload.failed.iter().map(|line| format!("{line}\n")).collect();
        let done = if reload.is_exchanged { reload.steps.text() } else { String::new() };
        let text = match refused {
            None => format!("{done}{failed}"),
            Some(why) => format!("given up: {why}; {}\n{failed}", reload.what_was_done()),
        };
        let is_done = refused.is_none() && failed.is_empty();
        self.answer(reload.token, if is_done { Ok(&text) } else { Err(&text) });
    }
}

impl Reload {
    fn new(token: u64, goal: Goal, steps: Steps, within: u64, now: u64) -> Self {
        Reload {
            token,
            goal,
            steps,
            is_settled: false,
            within,
            until: now.saturating_add(within),
            told_at: Some(now.saturating_add(LONG)),
            awaits: None,
            is_exchanged: false,
            calls: VecDeque::new(),
            stopped: BTreeMap::new(),
            gone: Vec::new(),
            failed: Vec::new(),
        }
    }

    /// What was changed of what was to be, where it is given up.
    fn what_was_done(&self) -> String {
        if self.is_exchanged {
            let left: Vec<&str> = self.calls.iter().map(|(_, _, path)| path.as_str()).collect();
            return format!("the new files run, and not started are {}", left.join(", "));
        }
        if self.gone.is_empty() {
            return "nothing is changed".to_string();
        }
        format!("stopped were {}, and nothing else is changed: ctl start starts one again", self.gone.join(", "))
    }
}

impl Daemon {
    /// Who waits for a reload when the tree has ended.
    pub(crate) fn end_reload(&mut self) {
        if let Some(reload) = self.reload.take() {
            self.answer(reload.token, Err(&format!("given up: the tree has ended; {}", reload.what_was_done())));
        }
    }
}
