//! The tree in a program that has replaced another one.
//!
//! It is built anew, with the restarts that count on (`rebuilt.rs`), and without processes. Then calls start those that run, and each
//! start is answered at once. Numbers of processes begin anew: so the log has one event for it, with the text of the tree and the
//! restarts, and then the orders and events of these calls.

use crate::daemon::{Daemon, layout_of};
use crate::handover::rebuilt::{Restarted, rebuilt, text_of};
use crate::live::Live;
use crate::loading::Loaded;
use crate::log::{Class, Record};
use crate::reload::shape::{Shape, child_at};
use crate::told::{CallKind, Told};
use otp_supervision::{Fault, Name, Note, Order, Process, ProcessId, Reading, Restart, SupervisorId, Tree};
use std::collections::{BTreeMap, BTreeSet, VecDeque};
use std::error::Error;

/// What the opening of the tree brings, as the log tells it.
#[derive(Debug)]
enum Event {
    Line(Record),
    /// A start with its path: it is answered by the process that had this number.
    Start(Process, String, ProcessId),
}

/// A tree that was opened over the processes that run.
#[derive(Debug)]
pub struct Opened {
    tree: Tree,
    paths: Vec<String>,
    events: Vec<Event>,
    /// Which restarts count on, as the log tells it.
    restarts: String,
}

/// The processes that run.
#[derive(Debug, Default)]
pub struct Processes {
    /// By the paths of their children.
    pub by_path: BTreeMap<String, ProcessId>,
    /// Those of a `simple_one_for_one`, by its path.
    pub shared: BTreeMap<String, VecDeque<ProcessId>>,
    /// Supervisors that run, without the `/` behind them.
    pub supervisors: BTreeSet<String>,
}

/// The opening of a tree.
struct Opening {
    opened: Opened,
    processes: Processes,
    reading: Reading,
}

impl Opening {
    fn path_of(&self, process: &Process) -> String {
        let above = self.opened.paths.get(process.supervisor.index()).map_or("", String::as_str);
        process.id.map_or_else(|| format!("{above}#{}", process.number), |id| format!("{above}{id}"))
    }

    /// Takes all orders, and answers each start, until nothing is left.
    fn go_on(&mut self) -> Result<(), Fault> {
        while let Some(order) = self.opened.tree.next_order()? {
            match order {
                Order::Start(process) => self.answer(process)?,
                order => self.opened.events.push(Event::Line(record_of(&order))),
            }
        }
        Ok(())
    }

    /// The start of a child is answered by the process that runs.
    fn answer(&mut self, process: Process) -> Result<(), Fault> {
        let path = self.path_of(&process);
        let above = &self.opened.paths[process.supervisor.index()];
        let runs = match process.id {
            Some(_) => self.processes.by_path.remove(&path),
            None => self.processes.shared.get_mut(above).and_then(VecDeque::pop_front),
        };
        // Only those are called for that run.
        let Some(number) = runs else { return Ok(()) };
        let (supervisor, note) = (process.supervisor, Note::Up(process.number));
        self.opened.events.push(Event::Start(process, path.clone(), number));
        self.tell(&Told::Note(supervisor, note), &path)
    }

    /// Calls a supervisor, and answers what it orders.
    fn call(&mut self, supervisor: SupervisorId, kind: CallKind, path: &str) -> Result<(), Fault> {
        self.tell(&Told::Call(supervisor, kind), path)?;
        self.go_on()
    }

    /// The processes that run are started in start order, and those of a temporary child that has none are forgotten.
    fn start_what_runs(&mut self, shapes: &[Shape]) -> Result<(), Fault> {
        for (number, shape) in shapes.iter().enumerate().filter(|(_, shape)| !shape.is_simple()) {
            let supervisor = SupervisorId::new(number as u32);
            let runs = shape.path.is_empty() || self.processes.supervisors.contains(shape.path.trim_end_matches('/'));
            for child in shape.children.iter().filter(|child| runs && child.nested.is_none()) {
                let (path, id) = (shape.path_of(child), child.spec.id);
                if self.processes.by_path.contains_key(&path) {
                    self.call(supervisor, CallKind::Restart(id), &path)?;
                } else if child.spec.restart == Restart::Temporary {
                    self.call(supervisor, CallKind::Delete(id), &path)?;
                }
            }
        }
        Ok(())
    }

    fn tell(&mut self, told: &Told, path: &str) -> Result<(), Fault> {
        told.tell(&mut self.opened.tree, self.reading)?;
        self.opened.events.push(Event::Line(told.record(path).text("by", "reload")));
        Ok(())
    }

    /// The processes that share a specification are children of the tree, too.
    fn start_shared(&mut self) -> Result<(), Fault> {
        let shared = self.processes.shared.iter();
        let counts: Vec<(String, usize)> = shared.map(|(above, numbers)| (above.clone(), numbers.len())).collect();
        for (above, count) in counts {
            let Some(number) = self.opened.paths.iter().position(|path| *path == above) else { continue };
            for _ in 0..count {
                self.call(SupervisorId::new(number as u32), CallKind::StartDynamic, &above)?;
            }
        }
        Ok(())
    }

    /// Supervisors that were down are so again: the outermost ones are stopped.
    fn stop_what_is_down(&mut self, shapes: &[Shape]) -> Result<(), Fault> {
        let is_down = |path: &str| !self.processes.supervisors.contains(path);
        let mut downs: Vec<(SupervisorId, Name, String)> = Vec::new();
        for (number, shape) in shapes.iter().enumerate() {
            for child in shape.children.iter().filter(|child| child.nested.is_some()) {
                let path = shape.path_of(child);
                let is_below = downs.iter().any(|(_, _, down)| path.starts_with(&format!("{down}/")));
                if is_down(&path) && !is_below {
                    downs.push((SupervisorId::new(number as u32), child.spec.id, path));
                }
            }
        }
        for (supervisor, id, path) in downs {
            self.call(supervisor, CallKind::Terminate(id), &path)?;
        }
        Ok(())
    }
}

/// An order that is for no process, as the log tells it.
fn record_of(order: &Order) -> Record {
    match order {
        Order::Reply(reply) => {
            let record = Record::new(Class::Order, "reply").number("call", reply.call.number());
            let record = record.text("answer", reply.answer.to_string());
            record.number("supervisor", u64::from(reply.supervisor.number()))
        }
        // No process is asked or killed, and nothing ends, where all starts are answered so.
        other => Record::new(Class::Order, "other").text("text", other.to_string()),
    }
}

/// Opens a tree over processes that run, of whose supervisors some may be down, and have restarted children before.
pub fn open_over(
    loaded: &Loaded,
    processes: Processes,
    restarted: &Restarted,
    reading: u64,
) -> Result<Opened, Box<dyn Error>> {
    let tree = rebuilt(&loaded.files.tree, restarted, reading)?;
    let (paths, _) = layout_of(&tree)?;
    let opened = Opened { tree, paths, events: Vec::new(), restarts: text_of(restarted) };
    let mut opening = Opening { opened, processes, reading: Reading::from_millis(reading) };
    opening.stop_what_is_down(&loaded.shapes)?;
    opening.start_what_runs(&loaded.shapes)?;
    opening.start_shared()?;
    Ok(opening.opened)
}

impl Daemon {
    /// A tree that was opened is the one that runs, and processes that were left go on in it.
    pub(crate) fn take_over(&mut self, opened: Opened, loaded: &Loaded) -> Result<(), Fault> {
        let Opened { tree, paths, events, restarts } = opened;
        let from = if self.has_reloaded { None } else { Some(self.text.clone()) };
        let record = Record::new(Class::Event, "reload").maybe("from_text", from);
        self.remark(record.text("tree_text", loaded.files.tree.as_str()).text("restarts", restarts));
        self.has_reloaded = true;
        self.paths = paths;
        self.lay_out(tree)?;
        let mut before = std::mem::take(&mut self.live);
        self.numbers.clear();
        let mut renamed = Vec::new();
        for event in events {
            match event {
                Event::Line(record) => self.remark(record),
                Event::Start(process, path, number) => {
                    let Some(mut live) = before.remove(&number) else { continue };
                    renamed.push((std::mem::replace(&mut live.path, path), live.path.clone()));
                    live.process = process;
                    self.go_on_with(live);
                }
            }
        }
        let running: BTreeSet<&str> = self.live.values().map(|live| live.path.as_str()).collect();
        let is_known = |path: &str| running.contains(path) || child_at(&loaded.shapes, path).is_some();
        self.tails.rename(&renamed, is_known);
        self.tallies.retain(|path, _| is_known(path));
        // There is none that no supervisor of the tree has.
        for live in before.into_values() {
            let _ = live.kill();
        }
        Ok(())
    }

    /// A process that runs is a child of the tree.
    fn go_on_with(&mut self, live: Live) {
        let record = self.order("start", &live.process, &live.path).number("pid", live.pid as u64);
        self.remark(record.text("text", "it runs already"));
        if !live.is_reaped {
            self.numbers.insert(live.pid, live.process.number);
        }
        self.live.insert(live.process.number, live);
    }
}
