//! A tree that runs: orders are carried out by threads and tasks, and what happens is told.

use crate::child::{Body, Child, Returned, play};
use crate::event::{Ended, Event, Last, Refused};
use crate::handle::{Asker, CallError, Request, Told};
use crate::stop::Stop;
use crate::supervisor::{Events, name_of};
use otp_supervision::{
    Answer, Became, CallId, End, Fault, Name, Order, Process, ProcessId, Reading, Reason, Reply, SupervisorId, Tree,
};
use std::collections::HashMap;
use std::sync::mpsc::{Receiver, Sender};
use std::thread;
use std::time::Duration;

/// So long is waited where nothing is due.
const LONG: Duration = Duration::from_secs(3600);
/// So long is waited where memory was refused, before the same is told again.
const PAUSE: Duration = Duration::from_millis(10);
/// So long a task may take to end once it was cancelled; then it is given up. It may be in a call that blocks.
const CANCELLED: Duration = Duration::from_secs(1);

/// What cancels a task.
type Cancel = Box<dyn Fn() + Send>;

/// What reads the time.
pub(crate) type Now = Box<dyn Fn() -> Reading + Send>;

/// A child that was started, and hasn't ended.
struct Live {
    process: Process,
    path: String,
    stop: Stop,
    /// Its start was answered.
    is_up: bool,
    /// Cancels it, where it is a task.
    cancel: Option<Cancel>,
    /// Once it was cancelled: when it is given up.
    given_up_at: Option<Reading>,
}

pub(crate) struct Run {
    tree: Tree,
    now: Now,
    /// What is run by children, each by the number that its orders have.
    bodies: Vec<Child>,
    /// What is run by children whose orders have no number: of a tree that wasn't put together here.
    pub(crate) other: Option<Child>,
    told: Sender<Told>,
    inbox: Receiver<Told>,
    events: Events,
    live: HashMap<ProcessId, Live>,
    askers: HashMap<CallId, Asker>,
}

impl Run {
    pub(crate) fn new(
        mut tree: Tree,
        now: Now,
        bodies: Vec<Child>,
        told: Sender<Told>,
        inbox: Receiver<Told>,
        events: Events,
    ) -> Self {
        tree.watch();
        let (live, askers) = (HashMap::new(), HashMap::new());
        Run { tree, now, bodies, other: None, told, inbox, events, live, askers }
    }

    pub(crate) fn run(mut self) -> Result<Ended, Refused> {
        loop {
            if let Some(end) = self.carry_out()? {
                return self.ended(&end);
            }
            // It has a sender itself, so it isn't cut off.
            if let Ok(told) = self.inbox.recv_timeout(self.time_left()) {
                self.take(told)?;
            }
            self.tick()?;
        }
    }

    #[cfg(test)]
    pub(crate) fn parts(&mut self) -> (&mut Tree, &Receiver<Told>) {
        (&mut self.tree, &self.inbox)
    }

    /// How long nothing is due.
    fn time_left(&self) -> Duration {
        let now = (self.now)();
        let cancelled = self.live.values().filter_map(|live| live.given_up_at).min();
        let left = self.tree.time_left(now).unwrap_or(LONG);
        cancelled.map_or(left, |at| left.min(at.since(now)))
    }

    /// Takes something that was told.
    pub(crate) fn take(&mut self, told: Told) -> Result<(), Refused> {
        match told {
            Told::Up(number) => self.take_up(number),
            Told::Ended(number, returned) => self.take_end(number, returned),
            Told::Stop => Ok(self.tree.stop((self.now)())?),
            Told::Call(request, asker) => {
                self.call(request, asker);
                Ok(())
            }
        }
    }

    /// What is due by now: deadlines, and cancelled tasks that don't end.
    pub(crate) fn tick(&mut self) -> Result<(), Refused> {
        let now = (self.now)();
        self.tree.tick(now)?;
        let is_due = |live: &&Live| live.given_up_at.is_some_and(|at| at <= now);
        let due: Vec<ProcessId> = self.live.values().filter(is_due).map(|live| live.process.number).collect();
        due.into_iter().try_for_each(|number| self.give_up(number))
    }

    /// Carries out all orders, each before the next one is taken; the end of the root, if it came.
    pub(crate) fn carry_out(&mut self) -> Result<Option<End>, Refused> {
        loop {
            let order = match self.tree.next_order() {
                Ok(Some(order)) => order,
                Ok(None) => return Ok(None),
                Err(Fault::Memory) => {
                    thread::sleep(PAUSE);
                    continue;
                }
                Err(fault) => return Err(fault.into()),
            };
            self.events.heard(&order);
            match order {
                Order::Start(process) => self.start(process)?,
                Order::Ask { process, .. } => self.ask(process.number),
                Order::Kill(process) => self.kill(process.number)?,
                Order::Reply(reply) => self.reply(reply),
                Order::Ready => self.events.tell(&Event::Ready),
                Order::Nested(supervisor, became) => self.tell_of(supervisor, became)?,
                Order::End(end) => return Ok(Some(end)),
                // The library has no other order.
                _ => {}
            }
        }
    }

    fn ended(&self, end: &End) -> Result<Ended, Refused> {
        let last = end.last.map(|last| self.last_of(last)).transpose()?;
        Ok(Ended { cause: end.cause, reason: end.reason, last })
    }

    fn path_of(&self, process: &Process) -> Result<String, Refused> {
        let id = process.id.map_or_else(String::new, |id| id.to_string());
        Ok(format!("{}{id}", self.tree.path_of(process.supervisor)?))
    }

    fn last_of(&self, last: otp_supervision::Last) -> Result<Last, Refused> {
        Ok(Last { path: self.path_of(&last.process)?, reason: last.reason })
    }

    fn tell_of(&mut self, supervisor: SupervisorId, became: Became) -> Result<(), Refused> {
        let path = self.tree.path_of(supervisor)?.trim_end_matches('/').to_string();
        match became {
            Became::Started(times) => self.events.tell(&Event::SupervisorStarted { path, times }),
            Became::Ended(cause, last) => {
                let last = last.map(|last| self.last_of(last)).transpose()?;
                self.events.tell(&Event::SupervisorEnded { path, cause, last });
            }
            // Nothing else becomes of one.
            _ => {}
        }
        Ok(())
    }

    /// Tells something of a process, again where there was no memory for it.
    fn tell(&mut self, tell: impl Fn(&mut Tree, Reading) -> Result<(), Fault>) -> Result<(), Refused> {
        loop {
            match tell(&mut self.tree, (self.now)()) {
                Err(Fault::Memory) => thread::sleep(PAUSE),
                told => return Ok(told?),
            }
        }
    }

    /// What runs the child of a process.
    fn child_of(&self, process: &Process) -> Option<Child> {
        match process.tag {
            Some(tag) => usize::try_from(tag).ok().and_then(|place| self.bodies.get(place)).cloned(),
            None => self.other.clone(),
        }
    }

    fn start(&mut self, process: Process) -> Result<(), Refused> {
        let (path, number) = (self.path_of(&process)?, process.number);
        let Some(child) = self.child_of(&process) else {
            return self.take_failed(process, path, Reason::error("no_body"));
        };
        let is_up = !child.waits_for_ready;
        let told = self.told.clone();
        // Where the run is over nobody is told.
        let stop = if is_up { Stop::default() } else { Stop::telling(move || drop(told.send(Told::Up(number)))) };
        let cancel = match self.begin(&child.body, &path, number, &stop) {
            Ok(cancel) => cancel,
            Err(why) => return self.take_failed(process, path, Reason::error(&why)),
        };
        self.events.tell(&Event::Started { path: path.clone(), number });
        self.live.insert(number, Live { process, path, stop, is_up, cancel, given_up_at: None });
        if is_up { self.tell(|tree, now| tree.up(now, &process)) } else { Ok(()) }
    }

    /// Starts a body; what cancels it, where it can be.
    fn begin(&self, body: &Body, path: &str, number: ProcessId, stop: &Stop) -> Result<Option<Cancel>, String> {
        let (told, heard) = (self.told.clone(), stop.clone());
        // Where the run is over nobody is told.
        let ended = move |returned| drop(told.send(Told::Ended(number, returned)));
        match body {
            Body::Thread(body) => {
                let (thread, body) = (thread::Builder::new().name(path.to_string()), body.clone());
                let begun = thread.spawn(move || ended(play(&body, &heard)));
                begun.map(|_| None).map_err(|error| error.to_string())
            }
            #[cfg(feature = "tokio")]
            Body::Task(task) => {
                let cancel = task.start(&heard, ended);
                Ok(Some(Box::new(move || cancel.abort())))
            }
        }
    }

    fn ask(&mut self, number: ProcessId) {
        if let Some(Live { path, stop, .. }) = self.live.get(&number) {
            self.events.tell(&Event::Asked { path: path.clone(), number });
            stop.want();
        }
    }

    /// A task is cancelled. No thread can be.
    fn kill(&mut self, number: ProcessId) -> Result<(), Refused> {
        let given_up_at = (self.now)() + CANCELLED;
        match self.live.get_mut(&number) {
            Some(Live { cancel: Some(cancel), given_up_at: at, .. }) => {
                cancel();
                *at = Some(given_up_at);
                Ok(())
            }
            _ => self.give_up(number),
        }
    }

    /// It counts as gone, and what it tells later is of no child.
    fn give_up(&mut self, number: ProcessId) -> Result<(), Refused> {
        let Some(Live { process, path, stop, .. }) = self.live.remove(&number) else {
            return Ok(());
        };
        stop.want();
        self.events.tell(&Event::GivenUp { path, number });
        self.tell(|tree, now| tree.exited(now, &process, Reason::Killed))
    }

    /// A child says that it is up.
    fn take_up(&mut self, number: ProcessId) -> Result<(), Refused> {
        let Some(live) = self.live.get_mut(&number).filter(|live| !live.is_up) else { return Ok(()) };
        live.is_up = true;
        let process = live.process;
        self.tell(|tree, now| tree.up(now, &process))
    }

    fn take_end(&mut self, number: ProcessId, Returned { reason, is_ok }: Returned) -> Result<(), Refused> {
        let Some(Live { process, path, is_up, .. }) = self.live.remove(&number) else {
            return Ok(());
        };
        if is_up {
            self.events.tell(&Event::Ended { path, number, reason });
            self.tell(|tree, now| tree.exited(now, &process, reason))
        } else if is_ok {
            self.events.tell(&Event::Ignored { path, number });
            self.tell(|tree, now| tree.ignored(now, &process))
        } else {
            self.take_failed(process, path, reason)
        }
    }

    fn take_failed(&mut self, process: Process, path: String, reason: Reason) -> Result<(), Refused> {
        self.events.tell(&Event::Failed { path, reason });
        self.tell(|tree, now| tree.failed(now, &process, reason))
    }

    fn reply(&mut self, Reply { call, answer, .. }: Reply) {
        if let Some(asker) = self.askers.remove(&call) {
            // Who asked may have gone.
            let _ = asker.send(match answer {
                Answer::Refused(why) => Err(CallError::Refused(why)),
                answer => Ok(answer),
            });
        }
    }

    fn call(&mut self, request: Request, asker: Asker) {
        match self.make(request) {
            Ok(number) => drop(self.askers.insert(number, asker)),
            // Who asked may have gone.
            Err(why) => drop(asker.send(Err(why))),
        }
    }

    /// Makes a call; its number.
    fn make(&mut self, request: Request) -> Result<CallId, CallError> {
        let now = (self.now)();
        Ok(match request {
            Request::Terminate(path) => {
                let (supervisor, id) = self.child_at(&path)?;
                self.tree.terminate_child(now, supervisor, id)?.number()
            }
            Request::Restart(path) => {
                let (supervisor, id) = self.child_at(&path)?;
                self.tree.restart_child(now, supervisor, id)?.number()
            }
            Request::Delete(path) => {
                let (supervisor, id) = self.child_at(&path)?;
                self.tree.delete_child(now, supervisor, id)?.number()
            }
            Request::Which(path) => {
                let supervisor = self.supervisor_at(&path)?;
                self.tree.which_children(now, supervisor)?.number()
            }
            Request::Count(path) => {
                let supervisor = self.supervisor_at(&path)?;
                self.tree.count_children(now, supervisor)?.number()
            }
            Request::Get(path) => {
                let (supervisor, id) = self.child_at(&path)?;
                self.tree.get_childspec(now, supervisor, id)?.number()
            }
            Request::StartDynamic(path) => {
                let supervisor = self.supervisor_at(&path)?;
                self.tree.start_dynamic(now, supervisor)?.number()
            }
            Request::TerminateProcess(path, process) => {
                let supervisor = self.supervisor_at(&path)?;
                self.tree.terminate_process(now, supervisor, process)?.number()
            }
            Request::Start(path, id, child) => {
                let supervisor = self.supervisor_at(&path)?;
                let id = name_of(&id).map_err(|why| CallError::Fault(why.to_string()))?;
                let spec = child.spec(id, self.bodies.len());
                let number = self.tree.start_child(now, supervisor, &spec)?.number();
                self.bodies.push(child);
                number
            }
        })
    }

    /// The supervisor of this path.
    fn supervisor_at(&self, path: &str) -> Result<SupervisorId, CallError> {
        let path = if path.is_empty() { String::new() } else { format!("{path}/") };
        for supervisor in self.tree.supervisors() {
            if self.tree.path_of(supervisor)? == path {
                return Ok(supervisor);
            }
        }
        Err(CallError::NoSuchPath)
    }

    /// The supervisor of the child of this path, and its id there.
    fn child_at(&self, path: &str) -> Result<(SupervisorId, Name), CallError> {
        let (above, id) = path.rsplit_once('/').unwrap_or(("", path));
        let name = Name::new(id).map_err(|_| CallError::NoSuchPath)?;
        Ok((self.supervisor_at(above)?, name))
    }
}

/// Where the run ends by a fault of its own, what it has started is asked to stop.
impl Drop for Run {
    fn drop(&mut self) {
        for live in self.live.values() {
            live.stop.want();
        }
    }
}
